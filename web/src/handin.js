// An answer to a lesson as a text: for each step what was there when it was done. Whoever gets it replays and judges it; the format is
// in docs/LESSONS.md.
// Tried by web/test/handin.mjs and web/test/lessonfiles.mjs.

import { Bench } from './bench.js';
import { untilDone } from './aside.js';
import { broken } from './forbidden.js';
import { LESSONS, contextOf, isDone, isOfPage, isOpened } from './lessons.js';
import { openingAt, readLesson } from './lessontext.js';
import { ownLists } from './own.js';

const MOST_ROWS = 200000, MOST_STEPS = 1e6;
const LAST = 'end answer';

// ---- writing

// A schedule in few words: `0*5 1 0`.
function packSteps(schedule) {
  const runs = [];
  for (const t of schedule) { const last = runs.at(-1); if (last && last[0] === t) last[1]++; else runs.push([t, 1]); }
  return runs.map(([t, n]) => (n > 1 ? `${t}*${n}` : t)).join(' ');
}
const closed = text => (!text || text.endsWith('\n') ? text : text + '\n');
const block = (word, name, text) => `${word} ${name}\n${closed(text)}end ${word}\n`;

function recordText(record, opening) {
  const lists = ownLists(record.own).map(([s, list]) => block('list', s, list)).join('');
  return (record.text === opening.text && record.title === opening.title ? '' : block('program', record.title, record.text))
    + `k ${record.k}\nthreads ${record.threads}\n${lists}` + (record.schedule.length ? `steps ${packSteps(record.schedule)}\n` : '')
    + `at ${record.position}\n` + (record.picked ? `choice ${record.picked}\n` : '')
    + (record.missed ? `missed ${record.missed}\n` : '') + (record.tried ? 'tried\n' : '');
}

export function answerText(number, records, by) {
  const read = LESSONS[number];
  const steps = records.map((record, i) => (record ? `\nstep ${i + 1}\n` + recordText(record, openingAt(read, i)) : ''));
  return `answer ${read.title}\n` + (by ? `by ${by}\n` : '')
    + (isOfPage(number) ? `lesson ${number + 1}\n` : block('lesson', 'text', read.bare)) + steps.join('') + `\n${LAST}\n`;
}

// ---- reading

const isNumber = (words, most) => /^\d{1,9}$/.test(words) && Number(words) <= most;
function unpackSteps(words, threads) {
  const steps = [];
  for (const word of words.split(/\s+/)) {
    const [, t, n = '1'] = /^(\d+)(?:\*(\d+))?$/.exec(word) || [];
    if (t === undefined || Number(t) >= threads || steps.length + Number(n) > MOST_STEPS) return null;
    for (let left = Number(n); left; left--) steps.push(Number(t));
  }
  return steps;
}

// What each line says of the present step, or why it cannot.
const OF_A_STEP = {
  k: (record, said) => (isNumber(said, 8) ? (record.k = Number(said), '') : 'k is a number from 0 to 8'),
  threads: (record, said) => (isNumber(said, 128) && said > 0 ? (record.threads = Number(said), '') : 'threads are 1 to 128'),
  at: (record, said) => (isNumber(said, MOST_STEPS) ? (record.position = Number(said), '') : 'this is no position'),
  choice: (record, said) => { record.picked = said; return ''; },
  missed: (record, said) => (isNumber(said, 1e6) ? (record.missed = Number(said), '') : 'this is no number of wrong choices'),
  tried: (record, said) => { record.tried = true; return said && 'nothing stands behind "tried"'; },
  steps: (record, said) => ((record.schedule = unpackSteps(said, record.threads) || []).length ? '' : 'these are no steps of its threads'),
  list: (record, said, text) => (isNumber(said, 1023) ? (record.own[said] = text, '') : 'this is no section'),
  program: (record, said, text) => (/^[^/\\]+\.as[lm]$/.test(said)
    ? (Object.assign(record, { title: said, kind: said.slice(-3), text }), '') : 'the name of a program ends in .asl or .asm'),
};

class AnswerReader {
  constructor(text) {
    Object.assign(this, { rows: text.replace(/\r\n?/g, '\n').split('\n').slice(0, MOST_ROWS), at: 0, refusals: [], title: '', by: '',
      number: -1, read: null, records: [], step: -1, places: [], hasEnd: false });
  }
  refuse(line, words) { if (words) this.refusals.push({ line, words, row: this.rows[line - 1] ?? '' }); }
  go() {
    for (; this.at < this.rows.length; this.at++) {
      const row = this.rows[this.at].trim();
      if (row && !row.startsWith('#')) this.take(row, this.at + 1);
    }
    if (!this.refusals.length) this.refusePlaces();
    if (!this.read && !this.refusals.length) this.refuse(1, 'an answer says which lesson it is of');
    const last = this.refusals.at(-1);
    if (last && this.title && !this.hasEnd && this.rows.findLastIndex(row => row.trim()) === last.line - 1)
      last.words += `; the file ends here, without \x60${LAST}\x60`;
    return this;
  }
  refusePlaces() {
    this.records.forEach(({ position, schedule: { length } }, i) => {
      if (position > length) this.refuse(this.places[i], `the step has ${length} steps, so "at" is a number from 0 to ${length}`);
    });
  }
  take(row, line) {
    const [, word, said] = /^(\S+) *(.*)$/.exec(row);
    const text = ['program', 'list'].includes(word) || (word === 'lesson' && said === 'text') ? this.block(word, line) : '';
    if (text === null) return;
    if (word === 'at') this.places[this.step] = line;
    if (this.hasEnd) this.refuse(line, `nothing stands behind \x60${LAST}\x60`);
    else if (row === LAST) this.hasEnd = true;
    else if (word === 'answer') this.title = said;
    else if (!this.title) this.refuse(line, 'the first line is "answer" and the title of the lesson');
    else if (word === 'by') this.by = said.slice(0, 80); // so many letters of a name are kept, for a table's column
    else if (word === 'lesson') this.refuse(line, this.takeLesson(said, text));
    else if (word === 'step') this.refuse(line, this.begin(said));
    else if (!Object.hasOwn(OF_A_STEP, word)) this.refuse(line, `"${word}" is no word of an answer`);
    else if (this.step < 0) this.refuse(line, `"${word}" stands after a "step"`);
    else this.refuse(line, OF_A_STEP[word](this.records[this.step], said, text));
  }
  // The lines up to `end WORD`; nothing where that is missing: all that follows is of the block.
  block(word, line) {
    const from = this.at + 1, length = this.rows.slice(from).findIndex(row => row === 'end ' + word);
    if (length < 0) {
      this.at = this.rows.length;
      this.refuse(line, `the file is cut off before \x60end ${word}\x60`);
      return null;
    }
    this.at = from + length;
    return this.rows.slice(from, from + length).map(row => row + '\n').join('');
  }
  takeLesson(said, text) {
    if (said !== 'text') {
      this.number = isNumber(said, LESSONS.length) ? Number(said) - 1 : -1;
      this.read = isOfPage(this.number) && LESSONS[this.number] || null;
      if (!this.read) return `this page has no lesson ${said}`;
      return this.read.title === this.title ? '' : `lesson ${said} of this page has another title: "${this.read.title}"`;
    }
    const { lesson, refusals } = readLesson(text, this.examples);
    if (refusals) return `the lesson in it is refused: line ${refusals[0].line}, ${refusals[0].words}`;
    Object.assign(this, { read: lesson, number: LESSONS.findIndex(other => other.bare === lesson.bare) });
    return '';
  }
  begin(said) {
    if (!this.read) return 'a step stands after its lesson';
    if (!isNumber(said, this.read.steps.length) || said < 1) return `the lesson has ${this.read.steps.length} steps`;
    this.step = Number(said) - 1;
    const { title, kind, text, k, threads } = openingAt(this.read, this.step);
    this.records[this.step] = { title, kind, text, k, threads, own: [], schedule: [], position: 0, picked: '', missed: 0 };
    return '';
  }
}

export const isAnswer = text => /^\s*answer\b/.test(text);
// Answers of older pages do not end in \x60end answer\x60.
export function readAnswer(text, examples) {
  const reader = Object.assign(new AnswerReader(text), { examples }).go(), { title, by, number, read, records, refusals, hasEnd } = reader;
  return refusals.length ? { refusals } : { answer: { title, by, number, read, records, text, hasEnd } };
}

// ---- judging: each step is replayed on a bench of its own, which draws nothing, and asked as the lesson does

class Quiet extends Bench {
  constructor() { super(() => {}, { state: () => null, restore: () => {} }); }
  drop() { clearTimeout(this.typing); return ++this.turn; }
  findRest() { /* of no use here */ }
}

const NOT_DONE = { done: false, changed: false, broke: [] };
const sleep = ms => new Promise(done => setTimeout(done, ms));
async function judgeStep(bench, read, i, records) {
  const step = read.steps[i], opening = openingAt(read, i), record = records[i];
  if (!record) return { ...NOT_DONE, words: 'not done' };
  await bench.open({ ...record, own: [...record.own] });
  if (bench.refusal) return { ...NOT_DONE, words: 'its program is refused: ' + bench.refusal.words };
  let context = contextOf(bench, read, step, opening, () => {});
  for (let i = 0; i < 400 && step.until.some(({ judges }) => judges) && context.enough === undefined; i++) {
    await sleep(25);
    context = contextOf(bench, read, step, opening, () => {});
  }
  const fits = isDone(context, step, opening, record.picked), isIts = isOpened(record, opening);
  const broke = isIts ? broken(read, i, records) : [], changed = isIts && record.text !== opening.text;
  const words = [fits ? '' : record.tried ? 'tried, not done' : 'what was handed in does not do it',
    broke.length ? `with ${broke.join(' and ')}, which the lesson forbids` : changed ? 'with a changed text' : ''];
  return { done: fits && !broke.length, words: words.filter(Boolean).join('; '), changed, broke };
}

// For each step whether it is done, what there is to say, whether its text was changed, and what differs that the lesson forbids.
export async function judgeAnswer({ read, records }) {
  const bench = new Quiet(), told = [];
  try {
    for (let i = 0; i < read.steps.length; i++) {
      const judged = untilDone(() => judgeStep(bench, read, i, records));
      told.push(await judged.catch(error => ({ ...NOT_DONE, words: error.message })));
    }
  } finally { bench.run?.close(); }
  return told;
}
