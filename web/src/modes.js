// What a thread that holds a mode does (docs/LOCKS.md, "Modes"), in words.
// Tried by web/test/words.mjs and web/test/using.mjs.

// The same in a word or three, for a sentence.
export const BRIEFLY = { IS: 'read below', IX: 'write below', S: 'read', SIX: 'read all, write below', X: 'write' };
export const MEANING = {
  IS: 'will read below', IX: 'will read and write below', S: 'reads all that is below',
  SIX: 'reads all that is below, and will write some of it', X: 'writes all that is below',
};
