// Handing in, and looking at what was handed in: the answers that were opened, each judged by its lesson, step by step.
// Tried by web/test/handin.mjs and web/test/lessonfiles.mjs.

import { byId, count, el, renew, whenDrawn, withCode } from '../dom.js';
import { copyText, download } from '../files.js';
import { linkHint, note, openDialog } from '../page.js';
import { chosen, differsAt, isKnown, isOfPage, lesson, triedHere } from '../lessons.js';
import { answerText, judgeAnswer, readAnswer } from '../handin.js';
import { marksOf, standingOf, sumOf, tableOf } from '../answers.js';
import { hasOwn } from '../own.js';
import { packText } from '../pack.js';
import { backToLesson } from './lesson.js';
import { drawLooking, lookAt } from './looking.js';
import { showOwn } from './own.js';

const answers = [], MOST = 200;
const state = { by: '', open: null };
const address = fragment => location.href.replace(/#.*$/, '') + fragment;
export const lessonLink = async read => address('#lesson-text=' + await packText(read.bare));
// Letters of all languages stay.
const safe = words => [...words.normalize('NFC').replace(/[^\p{L}\p{M}\p{N}_-]+/gu, '-').replace(/^-|-$/g, '')].slice(0, 60).join('');

// ---- handing in

export function openHandIn(bench) {
  if (!chosen()) return note('No lesson is open: j opens one.');
  const { number, done } = lesson, { title } = chosen(), tried = triedHere(bench); // (as it is now)
  const records = tried ? [...lesson.records.slice(0, done), tried] : lesson.records;
  const text = () => answerText(number, records, state.by.replace(/[\p{Cc}\p{Cf}]+/gu, ' ').trim());
  const tell = words => { byId('handed-told').textContent = words; };
  const save = () => { const file = `${safe(`${title}-${state.by}`)}.answer`; download(file, text()); tell(`Saved as ${file}.`); };
  const name = el('input', { id: 'handed-by', maxlength: 80, oninput: event => { state.by = event.currentTarget.value; } });
  openDialog('Hand in', el('p', {}, `“${title}”: ${lesson.done} of ${count(chosen().steps.length, 'step')} done. `
    + 'What is handed in is each step’s run, as it was when the step was done; whoever opens it sees it made again and judged.'
    + (tried ? ` Of step ${done + 1} what is there now is handed in, too, as “tried, not done”.` : '')),
  el('p', {}, el('label', {}, 'your name, if it is asked for ', name)),
  el('p', { class: 'files' },
    el('button', { id: 'hand-link', onclick: async () => {
      const link = address('#answer=' + await packText(text()));
      byId('handed').textContent = link;
      tell((await copyText(link)) ? 'The link is copied.' : 'Could not copy: the link stands below.');
    } }, 'Copy a link'),
    el('button', { id: 'hand-file', onclick: save }, 'Save a file')),
  el('p', { id: 'handed-told', 'aria-live': 'polite' }),
  linkHint(), el('pre', { id: 'handed', class: 'handed', tabindex: 0 }));
  tell('');
  byId('handed-by').value = state.by;
  byId('handed-by').focus();
}

// ---- what was handed in

// Answers the refusals of an answer's lines; one that is read is judged and shown. A lesson that is open stays.
export async function openAnswer(bench, text, examples, from = '') {
  const { answer, refusals } = readAnswer(text, examples);
  if (refusals) return refusals;
  const again = answers.findIndex(other => other.text === text && other.from === from);
  if (again >= 0) answers.splice(again, 1);
  if (answers.length >= MOST) answers.shift();
  answers.push(Object.assign(answer, { from, told: null }));
  state.open = answer;
  bench.changed('lesson');
  answer.told = await judgeAnswer(answer);
  bench.changed('lesson');
  const last = answer.records.findLast(record => record);
  if (!bench.title && last) load(bench, last);
  return [];
}
// Brings what was there when a step was done. An open lesson waits meanwhile.
function load(bench, record) {
  const { lesson: own, ...there } = bench.moment(), whole = { ...record, own: [...record.own] };
  showOwn(hasOwn(record.own));
  return bench.load(own ? { ...whole, lesson: { ...own, aside: own.aside || there } } : whole);
}
// (The header may stay at the window's top.)
const topOfRoom = () => {
  const header = document.querySelector('header');
  return 4 + (getComputedStyle(header).position === 'sticky' ? header.offsetHeight : 0);
};
// Brings it, and the run into sight.
async function look(bench, answer, i) {
  lookAt(answer, i);
  state.open = answer;
  await load(bench, answer.records[i]);
  note(`${nameOf(answer)}, step ${i + 1}`);
  whenDrawn(() => {
    const by = byId('s-time').getBoundingClientRect().top - topOfRoom();
    return () => scrollBy(0, by);
  });
}
// Back from a run to the line of its answer.
function toAnswer(answer) {
  const line = byId('answers').children[answers.indexOf(answer)];
  line?.querySelector('button').focus({ preventScroll: true });
  line?.scrollIntoView({ block: 'nearest' });
}
export function closeAnswers(bench) {
  answers.length = 0;
  state.open = null;
  if (lesson.aside) backToLesson(bench);
  bench.changed('lesson');
}

// Opens the details of an answer below its line, which stays where it was pressed; or closes them.
function toggle(bench, answer, button) {
  const { top: was } = button.getBoundingClientRect();
  state.open = state.open === answer ? null : answer;
  bench.changed('lesson');
  whenDrawn(() => {
    const { top } = button.getBoundingClientRect(), { height } = button.closest('li').getBoundingClientRect();
    const beyond = Math.max(0, Math.min(was - topOfRoom(), was + height - innerHeight));
    return () => scrollBy(0, top - was + beyond);
  });
}

const nameOf = ({ by }) => by || 'no name';
function lineOf(bench, answer, i, standing) {
  const { told, from, title } = answer, marks = told && marksOf(answer, standing.known).join(''), isOpen = answer === state.open;
  return el('div', { class: 'line' },
    el('span', { class: 'marks', role: 'img', 'aria-label': told ? 'steps: ' + marks : 'judged' }, marks || '..'),
    el('span', {}, el('button', { class: 'link', 'data-keep': 'answer-of-' + i, 'aria-expanded': String(isOpen),
      onclick: event => toggle(bench, answer, event.currentTarget) }, nameOf(answer)),
    from ? el('span', { class: 'soft' }, ` (${from})`) : null, ` ${title}: `, !told ? 'judged ..' : verdictOf(standing)));
}
// A tick is given only by a lesson that is known here: with another one anything may be done. It is not green where a text was changed.
function verdictOf({ known, line, isWhole, changed, steps, more }) {
  if (line) return [el('b', { class: 'is-fault' }, `not your lesson: its text differs from the one that is open here (line ${line})`),
    `; ${steps} of its own${more}`];
  return [!isWhole ? el('b', { class: 'is-fault' }, '✕ ' + steps + more)
    : known ? el('b', { class: changed ? null : 'is-free' }, '✓ ' + steps) : steps,
  known ? null : el('span', { class: 'soft' }, ' (by the lesson that came with it)')];
}

function stepOf(bench, answer, step, i) {
  const { done, words } = answer.told?.[i] || {}, record = answer.records[i];
  return el('li', { class: done ? 'done' : 'later' }, el('span', { class: 'tick' }, !answer.told ? '.. ' : done ? '✓ ' : '✕ '),
    withCode(step.text), words ? el('em', {}, ` (${words})`) : null,
    record?.picked ? [' Chosen: ', el('q', {}, withCode(record.picked))] : null,
    record?.missed ? el('em', {}, ` (${count(record.missed, 'wrong choice')})`) : null,
    record ? [' ', el('button', { class: 'link', 'data-keep': 'look-' + i, onclick: () => look(bench, answer, i) }, 'look at it')] : null);
}

const origin = answer => (isOfPage(answer.number) ? 'Judged by lesson ' + (answer.number + 1) + ' of this page.'
  : isKnown(answer) ? 'Judged by the lesson that was opened here.'
    : 'Judged by the lesson that came with the answer'
      + (differsAt(answer.read) ? '. It is another one: its ticks say nothing of yours.'
        : ': open your own file first, and this line says whether it is the same.'));

const detailsOf = (bench, answer) => el('div', { class: 'details' }, el('p', { id: 'answer-origin', class: 'soft' }, origin(answer)),
  el('ol', { id: 'answer-steps' }, answer.read.steps.map((step, i) => stepOf(bench, answer, step, i))));
const copyTable = async () => note((await copyText(tableOf(answers))) ? 'The table is copied: paste it into a sheet.' : 'Could not copy.');

export function drawAnswers(bench) {
  const standings = answers.map(answer => answer.told && standingOf(answer));
  byId('s-answer').hidden = !answers.length;
  byId('lesson-hand-in').hidden = !chosen();
  renew(byId('answers-sum'), answers.length < 2 ? null : [sumOf(standings) + '. ',
    el('button', { class: 'link', 'data-keep': 'answers-copy', onclick: copyTable }, 'copy as a table')]);
  renew(byId('answers'), answers.map((one, i) => el('li', {}, lineOf(bench, one, i, standings[i]),
    one === state.open ? detailsOf(bench, one) : null)));
  drawLooking(bench, answers, nameOf, { look: (answer, i) => look(bench, answer, i), back: toAnswer });
}
