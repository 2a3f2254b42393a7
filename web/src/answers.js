// What is told of answers that were judged: of each in a line, of all in a sum, and as a table for a sheet of marks.
// Tried by web/test/handin.mjs.

import { differsAt, isKnown } from './lessons.js';

// A mark for each step: done, by a lesson that is known here or by the one that came with the answer; not done; nothing handed in.
export const marksOf = ({ told, records }, known) => told.map(({ done }, i) => (done ? (known ? '✓' : '○') : records[i] ? '✕' : '–'));

// How an answer stands: `line` is the line from which on its lesson is another one; `steps` and `more` say the rest in words.
export function standingOf(answer) {
  const { told, read, records, hasEnd } = answer, all = read.steps.length, done = told.filter(step => step.done).length;
  const known = isKnown(answer), changed = told.filter(({ changed: is, broke }) => is && !broke.length).length;
  const tried = records.some(record => record?.tried) ? ' done, one tried' : '';
  return { known, line: known ? 0 : differsAt(read), isWhole: done === all, done, changed, more: moreOf(told, hasEnd || told.at(-1).done),
    steps: (done === all ? `all ${all} steps` : `${done} of ${all} steps${tried}`) + (changed ? `, ${changed} with a changed text` : '') };
}
// (A file that is cut off lacks its last steps.)
function moreOf(told, isComplete) {
  const broke = told.flatMap((step, i) => (step.broke.length ? [`step ${i + 1} with ${step.broke.join(' and ')}`] : []));
  return (broke.length ? `; ${broke.join(', ')}, which the lesson forbids` : '')
    + (isComplete ? '' : '; the file has no last line “end answer”: it is cut off, or was saved by an older page');
}

// How many of them have all, in words; one that is not judged yet has no standing.
export function sumOf(standings) {
  const judged = standings.filter(Boolean), whole = judged.filter(({ isWhole, line }) => isWhole && !line);
  const changed = whole.filter(standing => standing.changed).length;
  return `${whole.length} of ${standings.length} have all steps${changed ? `, ${changed} of them with a changed text` : ''}`
    + (judged.length < standings.length ? `; ${standings.length - judged.length} are still being judged` : '');
}

// A row of words for each answer, between tabs. (What a sheet would take for a formula is a text.)
const cell = words => String(words).replace(/\s+/g, ' ').replace(/^(?=[=+@-])/, "'");
export function tableOf(answers) {
  const judged = answers.filter(({ told }) => told), most = Math.max(...judged.map(({ read }) => read.steps.length));
  const numbers = Array.from({ length: most }, (_, i) => i);
  const rows = judged.map(answer => {
    const { known, line, done, steps, more } = standingOf(answer), marks = marksOf(answer, known);
    const by = line ? 'not your lesson: ' : known ? '' : 'by the lesson that came with it: ';
    return [answer.by, answer.from, answer.title, ...numbers.map(i => marks[i] ?? ''), done, marks.length, by + steps + more];
  });
  // in the order of the rows above
  const head = ['name', 'file', 'lesson', ...numbers.map(i => 'step ' + (i + 1)), 'done', 'of', 'told'];
  return [head, ...rows].map(row => row.map(cell).join('\t') + '\n').join('');
}
