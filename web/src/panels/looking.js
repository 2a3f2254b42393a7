// While the run of an answer is looked at: whose it is, of which step and how that is judged, above the timeline, with the way to the next
// run and back to the answers.
// Tried by web/test/handin.mjs.

import { byId, el, renew } from '../dom.js';

const at = { answer: null, step: -1 };
export const lookAt = (answer, step) => Object.assign(at, { answer, step });

// Whether what is shown is that run still: else the verdict would stand over what somebody else has done since. At an earlier position it
// is the same run.
function isShown({ text, k, threads, schedule }, bench) {
  return Boolean(bench.run) && bench.text === text && bench.k === k && bench.threads === threads && bench.run.length === schedule.length;
}
// The run that is handed in after this one: of a later step, or of the next answer.
function nextOf(answers) {
  const all = answers.flatMap(answer => answer.records.flatMap((record, i) => (record ? [[answer, i]] : [])));
  return all[all.findIndex(([answer, i]) => answer === at.answer && i === at.step) + 1];
}
const verdict = ({ done, words }) => el('b', { class: done ? 'is-free' : 'is-fault' }, (done ? '✓ done' : '✕ not done')
  + (words ? `, ${words}` : ''));

export function drawLooking(bench, answers, nameOf, { look, back }) {
  const box = byId('looking'), { answer, step } = at, record = answers.includes(answer) && answer.records[step];
  box.hidden = !record || !isShown(record, bench);
  if (box.hidden) return renew(box);
  const next = nextOf(answers), told = answer.told?.[step];
  renew(box, el('b', {}, nameOf(answer)), `, step ${step + 1} of ${answer.read.steps.length}: `, told ? verdict(told) : null, ' ',
    el('button', { class: 'link', 'data-keep': 'look-next', disabled: !next, onclick: () => look(...next) }, 'the next run'), ' ',
    el('button', { class: 'link', 'data-keep': 'look-back', onclick: () => back(answer) }, 'back to the answers'));
}
