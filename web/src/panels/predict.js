// The question before a step, its choices as buttons, and the count of hits. While it is asked, keys are those of its choices: the digits
// would step other threads.
// Tried by web/test/go.mjs.

import { byId, chip, el, renew, setText, withCode } from '../dom.js';
import { answer, drop, predict, question, setPredict } from '../predict.js';

const ASKED = { reply: 'What will it do?', by: 'Who is in its way?', node: 'At which node? (Each at which the two clash counts.)' };
const state = { asked: '' };

export const togglePredict = bench => setPredict(bench, !predict.on);
const take = (bench, asked, choice) => answer(bench, asked[0], choice.value);

function onKey(bench, event) {
  const asked = bench.run && question(bench);
  if (!asked || event.ctrlKey || event.metaKey || event.altKey) return;
  if (event.key === 'Tab' || event.key === 'Enter' || event.key === ' ') { event.stopPropagation(); return; }
  event.stopPropagation();
  event.preventDefault();
  const choice = asked[1].find(({ key }) => key === event.key);
  if (choice) take(bench, asked, choice);
  else if (event.key === 'Escape') drop(bench);
}
export const listenToPredict = bench => byId('s-predict').addEventListener('keydown', event => onKey(bench, event));

export function drawPredict(bench) {
  const box = byId('s-predict'), asked = predict.on && bench.run ? question(bench) : null;
  byId('predict').setAttribute('aria-pressed', String(predict.on));
  box.hidden = !predict.on || !bench.run;
  if (box.hidden) return;
  const words = choice => (asked[0] === 'node' ? bench.names.node(choice.value) : choice.words);
  renew(byId('predict-asked'), asked
    ? [chip(predict.thread), ' ', el('code', {}, bench.names.statement(bench.state.threads[predict.thread].pc)), ': ',
      el('b', {}, ASKED[asked[0]]), ' ', el('span', { class: 'answers', role: 'group', 'aria-label': ASKED[asked[0]] },
        asked[1].map(choice => el('button', { key: asked[0] + choice.value, 'data-keep': `answer-${choice.value}`,
          onclick: () => take(bench, asked, choice) }, words(choice), choice.key ? [' ', el('kbd', {}, choice.key)] : null))),
      el('button', { class: 'link', onclick: () => drop(bench) }, 'no step (Esc)')]
    : [el('b', {}, 'Predict: '), predict.told ? [withCode(predict.told), ' '] : null,
      'Choose a thread to step; then say what it will do.']);
  setText(byId('predict-count'), predict.asked ? `${predict.hits} of ${predict.asked} hit` : '');
  byId('predict-all').checked = !predict.all;
  const now = asked ? asked[0] : '';
  if (asked && now !== state.asked) byId('predict-asked').querySelector('.answers button')?.focus({ preventScroll: true });
  else if (!asked && state.asked && byId('s-predict').contains(document.activeElement)) document.activeElement.blur();
  state.asked = now;
}
