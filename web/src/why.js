// Why a section needs its locks, in the words of the toolchain's `explain`.
// Tried by web/test/shares.mjs and web/test/words.mjs.

import { explainText } from './toolchain.js';

const ADVICE = / \(--all [a-z ]+\)/g; // of a command line; the page has a button
// a section's words end where the next begins, or what the text may lack
const PART = /^(?=section \d+, |missing in the text: )/m;
const known = { text: '', k: -1, all: false, answer: null }; // the last answer has all sections of its text

async function explained(text, k, all) {
  if (known.text !== text || known.k !== k || known.all !== all)
    Object.assign(known, { answer: await explainText(text, k, all), text, k, all });
  return known.answer;
}

// The words, and whether there are more of them.
export async function whyText(bench, section, all = false) {
  if (bench.kind !== 'asl') return { words: 'Reasons are found in a source. This program has lists of its own.' };
  const answer = await explained(bench.builtText, bench.builtK, all);
  if (answer.refusal) return { words: answer.refusal };
  const parts = answer.text.split(PART);
  const own = parts.find(part => part.startsWith(`section ${section}, `));
  // (a button that is not drawn anew yet may be of the program before)
  if (!own) return { words: `The program has changed meanwhile: it has no section ${section} now.` };
  return { words: own.trimEnd().replaceAll(ADVICE, ''), more: own.search(ADVICE) >= 0 };
}
