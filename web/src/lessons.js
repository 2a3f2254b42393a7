// The lesson that is open: which step is the present one, what was done, and what may not be done meanwhile. Lessons are texts
// (docs/LESSONS.md); those that the page has are the files of web/lessons.
// Tried by web/test/lessons.mjs and web/test/lessonfiles.mjs.

import { openingAt, readLesson } from './lessontext.js';
import { broken, forbids } from './forbidden.js';
import { sameOwn } from './own.js';
import { packText } from './pack.js';
import { verdictOf } from './verdict.js';

export const LESSONS = []; // { title, about, .. }, those of the page, then those that were opened
const page = { lessons: 0, examples: {} }; // how many of them are the page's
// `missed` says how many choices of the present step were wrong; `aside` is the moment to come back to from an answer that is looked at.
const NONE = { number: -1, done: 0, hint: false, picked: [], records: [], missed: 0, did: '', aside: null };
export const lesson = { ...NONE };

// The lessons of the page: their texts, in order. One that is refused is a fault of the page.
export function takeLessons(texts, examples) {
  for (const text of texts) {
    const { lesson: read, refusals } = readLesson(text, examples);
    if (refusals) throw new Error(`lesson ${LESSONS.length + 1}, line ${refusals[0].line}: ${refusals[0].words}`);
    LESSONS.push(read);
  }
  Object.assign(page, { lessons: LESSONS.length, examples });
}
export const examplesOf = () => page.examples;
export const isOfPage = number => number >= 0 && number < page.lessons;
// The number of a lesson that was opened: the same text has the same number.
export function addLesson(read) {
  const known = LESSONS.findIndex(other => other.bare === read.bare);
  if (known < 0 && !read.packed) packText(read.bare).then(packed => { read.packed = packed; });
  return known < 0 ? LESSONS.push(read) - 1 : known;
}
// The lessons that were opened here.
export const openedHere = () => LESSONS.slice(page.lessons);
export const filesOpened = () => openedHere().map(({ file }) => file);
export const programsOf = read => [read.opening, ...read.steps.map(({ opening }) => opening)].filter(Boolean);
export const isKnown = ({ number, read }) => isOfPage(number) || openedHere().some(own => !lineOfDifference(own, read));
// The line of the last one of its title that was opened here from which on a lesson differs; 0 where none was.
export function differsAt(read) {
  const own = openedHere().findLast(({ title }) => title === read.title);
  return own ? lineOfDifference(own, read) : 0;
}
// (A line has its number in the own file, which may have lines that others do not get.)
const rowsOf = read => (read.rows ||= read.bare.trimEnd().split('\n').map(row => row.trimEnd()));
function lineOfDifference(own, other) {
  if (own.bare === other.bare) return 0;
  const rows = rowsOf(own), others = rowsOf(other), at = rows.findIndex((row, i) => row !== others[i]);
  return at < 0 && others.length <= rows.length ? 0 : own.given[at < 0 ? rows.length - 1 : at].line;
}

export const chosen = () => LESSONS[lesson.number];
export const presentStep = () => chosen()?.steps[lesson.done];
export const isOver = () => Boolean(chosen()) && lesson.done === chosen().steps.length;
export const startLesson = number => Object.assign(lesson, NONE, { number, picked: [], records: [] });
export const endLesson = () => startLesson(-1);

// What may not be done in the present step, in the words of `forbid`.
export const isForbidden = word => Boolean(presentStep()) && !lesson.aside && forbids(chosen(), lesson.done, word);

// ---- judging

// The source by which lists are judged: the lesson's program, if that is a source.
const judgeOf = (read, opening) => (opening.kind === 'asl' ? opening.text : read.source);
// What conditions look at: the bench, and what `check` says of it, if a condition asks for that.
export function contextOf(bench, read, step, opening, told) {
  if (!step.until.some(({ judges }) => judges)) return { bench };
  const verdict = verdictOf(judgeOf(read, opening), bench.asm, opening.kind === 'asl' ? bench.builtK : opening.k, told);
  return { bench, enough: verdict?.enough, inferred: verdict?.inferred };
}
export const isOpened = (bench, opening) => bench.title === opening.title && bench.kind === opening.kind;
export function isDone(context, step, opening, picked) {
  const { bench } = context;
  if (!bench.run || bench.refusal || bench.going || !isOpened(bench, opening)) return false;
  return step.until.every(({ fits }) => fits(context)) && (!step.right || picked === step.right);
}

// How records are kept in a link: `pack` and `unpack`, which answer letters and records; `told` hears that they were read.
const keeper = { pack: null, unpack: null, told: null };
export const keepRecords = ways => Object.assign(keeper, ways);
async function packRecords(told) {
  const { number, done, records } = lesson, did = await keeper.pack(number, records);
  if (lesson.number !== number || lesson.done !== done) return;
  lesson.did = did;
  told();
}
async function unpackRecords(did) {
  const { number } = lesson, records = await keeper.unpack(did).catch(() => []);
  if (lesson.number !== number) return;
  records.forEach((record, i) => { lesson.records[i] ||= record; lesson.picked[i] ||= record.picked; });
  lesson.did = did;
  keeper.told();
}

// What was there when a step was done.
const recordOf = (bench, picked) => ({ title: bench.title, kind: bench.kind, text: bench.text, k: bench.k, threads: bench.run.threads,
  own: [...bench.own], schedule: bench.run.schedule, position: bench.position, picked, missed: lesson.missed });

// What is tried at the present step, and was not there when the one before it was done; nothing where there is no such.
export function triedHere(bench) {
  const read = chosen(), { done } = lesson, opening = read && !isOver() && openingAt(read, done), picked = lesson.picked[done] ?? '';
  if (!opening || lesson.aside || !bench.run || bench.refusal || bench.going || !isOpened(bench, opening)) return null;
  const record = { ...recordOf(bench, picked), tried: true }, { schedule, own, text } = record, before = lesson.records[done - 1];
  const began = before && isOpened(before, opening) ? before : opening;
  const isSame = name => JSON.stringify(record[name]) === JSON.stringify(began[name]);
  return !picked && ['text', 'schedule', 'k', 'threads'].every(isSame) && sameOwn(own, began.own) ? null : record;
}

// What is there though the present step forbids it, in words; as by a file that was opened.
export const brokenHere = bench => (!bench.run || lesson.aside || isOver() || !isOpened(bench, openingAt(chosen(), lesson.done)) ? []
  : broken(chosen(), lesson.done, lesson.records, recordOf(bench)));

// A step that was done stays done; only the present one is looked at, and nothing while an answer is.
export function advance(bench, told) {
  const read = chosen();
  while (read && !lesson.aside && lesson.done < read.steps.length) {
    const step = read.steps[lesson.done], opening = openingAt(read, lesson.done), picked = lesson.picked[lesson.done] ?? '';
    if (!bench.run || bench.refusal || !isDone(contextOf(bench, read, step, opening, told), step, opening, picked)) return;
    if (brokenHere(bench).length) return;
    lesson.records[lesson.done] = recordOf(bench, picked);
    Object.assign(lesson, { done: lesson.done + 1, hint: false, missed: 0, did: '' });
    packRecords(told);
  }
}

// ---- what undo, a link and a reload keep of a lesson, as plain data; null where none is open

export const lessonState = () => (lesson.number < 0 ? null : { number: lesson.number, done: lesson.done, picked: [...lesson.picked],
  records: [...lesson.records], missed: lesson.missed, aside: lesson.aside, ...(isOfPage(lesson.number) ? {} : { file: chosen().file }) });

// Brings that back; what has a text and a run of its own is brought back by the bench.
export function restoreLesson(state) {
  const file = state?.file, read = file && readLesson(file, page.examples).lesson;
  const number = !state ? -1 : file ? (read ? addLesson(read) : -1) : LESSONS[state.number] ? state.number : -1;
  startLesson(number);
  if (number >= 0) Object.assign(lesson, { done: Math.max(0, Math.min(state.done || 0, chosen().steps.length)),
    picked: [...state.picked || []], records: [...state.records || []], missed: state.missed || 0, aside: state.aside || null });
  if (number >= 0 && state.did) unpackRecords(state.did); else if (lesson.records.length) packRecords(() => {});
}
