// Lists of one's own for a source: the program that is inferred for it, with other locks in its lists. Its code stays what it is, and
// whether the lists are enough is asked of the toolchain. `own` has the text of the list of each section that is not the inferred one; at
// those that are, it is undefined, as it is behind its end.
// Tried by web/test/own.mjs.

import { assemble, checkLists, compileText, diagnoseAssembly } from './toolchain.js';

// Each list of one's own, with its section. (Lists as a text would be alike where there is none and where one is empty.)
export const ownLists = own => own.flatMap((list, s) => (list === undefined ? [] : [[s, list]]));
export const hasOwn = own => ownLists(own).length > 0;
export const sameOwn = (own, other) => JSON.stringify(ownLists(own)) === JSON.stringify(ownLists(other));
// From JSON, which has null where there is none.
export const ownOfJson = lists => lists.map(list => (typeof list === 'string' ? list : undefined));

// An assembly text as its code and the texts of its lists.
export function partsOfText(text) {
  const [code, ...lists] = text.split(/^list\n/m);
  return { code, lists };
}

const closed = list => (list && !list.endsWith('\n') ? list + '\n' : list);

// The assembly text with these lists; where there is none, the list that it has.
export function withLists(text, own) {
  const { code, lists } = partsOfText(text);
  return code + lists.map((list, s) => 'list\n' + closed(own[s] ?? list)).join('');
}

// The same lists, without those that say what the text says anyhow.
export function onlyOther(text, lists) {
  const inferred = partsOfText(text).lists;
  return lists.map((list, s) => (list === undefined || closed(list) === inferred[s] ? undefined : list));
}

// What the toolchain makes of a source under lists of one's own: an image, or a refusal with the list and the line that it is of; and
// the text of what is inferred.
export async function underLists(source, k, own) {
  const inferred = await compileText(source, k);
  if (inferred.refusal) return inferred;
  const other = noLock(own);
  if (other) return { ...other, inferred: inferred.text };
  const text = withLists(inferred.text, own), { output, refusal } = await assemble(text);
  return { inferred: inferred.text, ...(refusal ? { refusal, told: await toldOfLists(text, refusal) } : { image: output }) };
}

// Where a line of an assembly text stands: which list, and which line of it, from 1.
export function placeInLists(text, line) {
  const before = text.split('\n').slice(0, line), list = before.filter(row => row === 'list').length - 1;
  return { list, line: line - 1 - before.lastIndexOf('list') };
}

// If an assembly text has the code of a source: its lists as lists of one's own, at the k at which most of them are the inferred ones.
export async function ownListsOf(source, assembly) {
  const { code, lists } = partsOfText(assembly);
  let best = null;
  for (let k = 0; k <= 8; k++) {
    const { text } = await compileText(source, k);
    if (!text || partsOfText(text).code !== code) return null;
    const own = onlyOther(text, lists), others = own.filter(list => list !== undefined).length;
    if (!best || others < best.others) best = { k, own, others };
  }
  return best && { k: best.k, own: best.own };
}

// A line that begins something else than a lock would end its list.
const OTHER = /^[\s,]*(?!root\b|class\b|expr\b)[^\s,]/m;
function noLock(own) {
  const [list] = ownLists(own).find(([, text]) => OTHER.test(text)) || [];
  if (list === undefined) return null;
  const row = own[list].split('\n').find(text => OTHER.test(text)).trim();
  const words = `List of section ${list}: \x60${row}\x60 is no lock. Locks are written \x60expr r1 write\x60, `
    + '\x60expr r1 * .1 read\x60, \x60expr g0 * write\x60, \x60class 0 read\x60 or \x60root write\x60.';
  const inList = 1 + own[list].split('\n').findIndex(text => OTHER.test(text));
  return { refusal: 'Line', told: { name: 'Line', words, at: -1, ofLists: true, list, inList } };
}

async function toldOfLists(text, refusal) {
  const [head, row = ''] = ((await diagnoseAssembly(text)).text || '').split('\n');
  const told = /^(\d+):(\d+): \S+: (.*)$/.exec(head);
  if (!told) return { name: refusal, words: 'The lists are refused: ' + refusal, at: -1, ofLists: true };
  const { list, line } = placeInLists(text, Number(told[1])), [, acquired] = /^\s*acq (\d+)/.exec(row) || [];
  const where = list < 0 ? `List of section ${acquired}` : `List of section ${list}, line ${line}, \x60${row.trim()}\x60`;
  const place = list < 0 ? { list: Number(acquired) } : { list, inList: line };
  return { name: refusal, words: `${where}: ${told[3]}`, at: -1, ofLists: true, ...place };
}

// Whether lists are enough for a source: { enough }, or the lock that one of them lacks, or why neither can be said.
export async function judgeLists(source, program, k) {
  const { text, refusal } = await checkLists(source, program, k);
  if (text) return { enough: true, said: text.trim() };
  const [, why, section, lock] = /^(Uncovered|Unguarded)\((\d+), (.*)\)$/.exec(refusal) || [];
  return { enough: false, said: refusal, lacks: why ? { section: Number(section), lock, reads: why === 'Unguarded' } : null };
}
