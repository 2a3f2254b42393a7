// What the text does not say: the warnings of the toolchain's `lists`, each with its line, in few words for beside it, and in a sentence.
// Tried by web/test/warnings.mjs.

import { hasCommand, listsText } from './toolchain.js';

const FEW = { unreached: 'main does not reach it', 'no class': 'no list covers it' };
const SENTENCE = {
  unreached: ({ function: name }) => `\x60main\x60 does not reach \x60${name}\x60: no run has it. Its lists may be too short for a caller `
    + 'who is not in this text.',
  'no class': (_, statement) => `\x60${statement}\x60 goes by a pointer that nothing in this text fills, so no list covers it. Here it can `
    + 'only fault; where the text lacks a line of yours it is a race.',
};

// The last member of the document. (All else of it may be large, and is of no use here.)
const MEMBER = '"warnings":';
function readWarnings(text) {
  const at = text.lastIndexOf(MEMBER);
  if (at < 0) throw new Error('the lists come without warnings');
  return JSON.parse('{' + text.slice(at)).warnings;
}

// Of a source that the toolchain has accepted; nobody waits for it. Its places are bytes of a text of ASCII letters.
export async function warningsOf(source, k) {
  if (!hasCommand('lists')) return [];
  const { text } = await listsText(source, k, true);
  return !text ? [] : readWarnings(text).map(({ warning, line, from, to, function: name }) => {
    const statement = source.slice(from, to).split('\n')[0].slice(0, 60).replace(/;\s*$/, '').trim();
    return { line: line - 1, few: FEW[warning] || warning, words: SENTENCE[warning]?.({ function: name }, statement) || `${warning}.` };
  });
}
