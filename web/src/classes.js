// Why objects are one class, in the words of the toolchain's `explain --classes`.
// Tried by web/test/classes.mjs.

import { classesText } from './toolchain.js';

const ADVICE = ' (--all tells them)'; // of a command line; the page has a button
const NO_SOURCE = 'Why objects are one class is found in a source. An assembly text numbers its classes itself.';
const known = { text: '', all: false, answer: null }; // the last answer has all classes of its text

async function explained(text, all) {
  if (known.text !== text || known.all !== all) Object.assign(known, { answer: await classesText(text, all), text, all });
  return known.answer;
}

// What is said of a class, row by row, and whether there is more; or words why nothing is.
export async function classRows(bench, number, all) {
  if (bench.kind !== 'asl') return { words: NO_SOURCE };
  const { refusal, text } = await explained(bench.builtText, all);
  if (refusal) return { words: refusal };
  const own = text.split(/^(?=class \d+: )/m).find(part => part.startsWith(`class ${number}: `));
  // (a button that is not drawn anew yet may be of the program before)
  if (!own) return { words: `The program has changed meanwhile: it has no class ${number} now.` };
  return { rows: own.trimEnd().replaceAll(ADVICE, '').split('\n').filter(Boolean), more: own.includes(ADVICE) };
}

// The first class that has more than one member; the first of all where none has.
export async function firstJoined(bench) {
  if (bench.kind !== 'asl') return 0;
  const { text = '' } = await explained(bench.builtText, false), parts = text.split(/^(?=class \d+: )/m);
  return Number(/^class (\d+): /.exec(parts.find(part => /\n {2}/.test(part)) || '')?.[1] ?? 0);
}

// The pieces of a row: those at odd places are `line N`, which no statement of a source has.
export const piecesOf = row => row.split(/\b(line \d+)\b/);
export const lineOf = piece => Number(piece.slice(5)) - 1;
