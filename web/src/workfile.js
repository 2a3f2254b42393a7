// A file of the page's own: a text that has the program and the run (docs/WORKBENCH.md, "Files and links"). Head lines, then a line
// `text`, then the program as it is.
// Tried by web/test/opening.mjs.

import { notesText, readNotes, MOST_NOTES } from './notes.js';
import { ownLists } from './own.js';
import { MOST_STEPS } from './pack.js';

const FIRST = 'workbench 1';
export const isWorkFile = text => /^workbench \d/.test(text);

// A schedule as words: 0*3 stands for 0 0 0.
function stepWords(schedule) {
  const runs = [];
  for (const t of schedule) { const last = runs.at(-1); if (last && last[0] === t) last[1]++; else runs.push([t, 1]); }
  return runs.map(([t, n]) => (n > 1 ? `${t}*${n}` : t)).join(' ');
}

export function workFile({ text, kind, title, k, threads, schedule, position, notes, own }, lessonWords) {
  const lists = ownLists(own).flatMap(([s, list]) => ['list ' + s, ...list.split('\n').filter(Boolean).map(lock => 'lock ' + lock)]);
  const rows = schedule.length ? ['steps ' + stepWords(schedule), 'at ' + position] : [];
  const said = notesText(notes), noted = said ? said.split('\n').map(note => 'note ' + note) : [];
  return [FIRST, 'title ' + title, 'kind ' + kind, 'k ' + k, 'threads ' + threads, ...lists, ...rows, ...noted,
    ...(lessonWords.length ? ['lesson ' + lessonWords.join('&')] : []), 'text', text].join('\n');
}

function number(words, low, high) {
  if (!/^\d+$/.test(words) || Number(words) < low || Number(words) > high)
    throw new Error(`a number from ${low} to ${high} should stand there`);
  return Number(words);
}

function readSteps(words) {
  const steps = [];
  for (const word of words.split(' ').filter(Boolean)) {
    const [, t, n = 1] = /^(\d+)(?:\*(\d+))?$/.exec(word) || [];
    if (t === undefined || Number(t) > 127)
      throw new Error(`${word.slice(0, 20)} is no step: the number of a thread, or 5*3 for three steps of thread 5`);
    if (steps.length + Number(n) > MOST_STEPS) throw new Error(`there are more than ${MOST_STEPS} steps`);
    for (let left = Number(n); left > 0; left--) steps.push(Number(t));
  }
  return steps;
}

// What each head line says.
const HEAD = {
  title: (whole, words) => { whole.title = words; },
  kind: (whole, words) => {
    if (words !== 'asl' && words !== 'asm') throw new Error('a kind is asl or asm');
    whole.kind = words;
  },
  k: (whole, words) => { whole.k = number(words, 0, 8); },
  threads: (whole, words) => { whole.threads = number(words, 1, 128); },
  steps: (whole, words) => { whole.schedule = readSteps(words); },
  at: (whole, words) => { whole.position = number(words, 0, 16777216); },
  list: (whole, words) => { whole.own[whole.last = number(words, 0, 1023)] = ''; },
  lock: (whole, words) => {
    if (whole.last === undefined) throw new Error('a lock stands below the list that it is of');
    whole.own[whole.last] += words + '\n';
  },
  note: (whole, words) => {
    const note = readNotes(words);
    if (!Object.keys(note).length) throw new Error('a note is the number of a line and words');
    if (Object.keys(whole.notes).length >= MOST_NOTES) throw new Error(`there are more than ${MOST_NOTES} notes`);
    Object.assign(whole.notes, note);
  },
  lesson: (whole, words) => { whole.lessonWords = words; },
};

// What such a file says; it throws with the line and the reason where a line is wrong.
export function readWorkFile(file) {
  const rows = file.split('\n'), whole = { title: 'untitled.asl', kind: 'asl', notes: {}, own: [] };
  const wrong = (n, reason) => { throw new Error(`line ${n + 1}: ${reason}`); };
  if (rows[0] !== FIRST) wrong(0, `the first line should be \x60${FIRST}\x60`);
  const text = rows.indexOf('text');
  if (text < 0) wrong(rows.length - 1, 'the file ends without a line `text`, behind which the program stands');
  rows.slice(1, text).forEach((row, i) => {
    const [, word, words = ''] = /^(\S+)(?: (.*))?$/.exec(row) || [null, ''];
    if (!Object.hasOwn(HEAD, word))
      wrong(i + 1, `no line begins with \x60${word.slice(0, 20)}\x60: there are ${Object.keys(HEAD).join(', ')}, text`);
    try { HEAD[word](whole, words); } catch (error) { wrong(i + 1, error.message); }
  });
  delete whole.last;
  return { ...whole, text: rows.slice(text + 1).join('\n') };
}
