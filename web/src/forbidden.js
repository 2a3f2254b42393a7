// What a step of a lesson forbids and what can be seen in a record of it: another text, another k, other threads, other lists. How the
// steps were made, by which keys, no record shows.
// Tried by web/test/handin.mjs.

import { FORBIDS, openingAt } from './lessontext.js';
import { ownLists } from './own.js';

export const forbids = (read, i, word) => read.steps[i].forbids.includes(word) || read.forbids.includes(word);

const locksOf = list => list.split('\n').map(row => row.trim()).filter(Boolean);
// What is compared, by the word that forbids it. (A text that comes out of a link or a file has a line end behind it.)
const SEEN = {
  edit: ({ text }) => text.trimEnd(), k: ({ k }) => k, threads: ({ threads }) => threads,
  lists: ({ own }) => JSON.stringify(ownLists(own).map(([s, list]) => [s, ...locksOf(list)])),
};

// What differs, in words, though step i forbids it: from the step's program, and from what an earlier step with the same program has left
// there, which did not forbid it.
export function broken(read, i, records, record = records[i]) {
  const opening = openingAt(read, i);
  const isLeft = (word, seen) => records.slice(0, i).some((before, j) => before && openingAt(read, j) === opening
    && !forbids(read, j, word) && seen(before) === seen(record));
  return Object.entries(SEEN).filter(([word, seen]) => forbids(read, i, word) && seen(record) !== seen(opening) && !isLeft(word, seen))
    .map(([word]) => FORBIDS[word]);
}
