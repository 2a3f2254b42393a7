// Notes of one's own on lines, by the number of the line from 0 on: a source has no comments. They stay with their lines as one types.
// Tried by web/test/notes.mjs.

export const MOST_LETTERS = 200, MOST_NOTES = 400;
export const cleanNote = words => words.replace(/[\p{Cf}\p{Cc}\s]+/gu, ' ').trim().slice(0, MOST_LETTERS);

// Where the notes are when one text has become another: those before and after what differs stay with their lines, and those of lines
// that are gone go with them.
export function movedNotes(notes, before, after) {
  if (!Object.keys(notes).length) return notes;
  const old = before.split('\n'), now = after.split('\n'), less = Math.min(old.length, now.length);
  let head = 0, tail = 0;
  while (head < less && old[head] === now[head]) head++;
  while (tail < less - head && old.at(-1 - tail) === now.at(-1 - tail)) tail++;
  const moved = {}, by = now.length - old.length;
  for (const [key, words] of Object.entries(notes)) {
    const line = Number(key);
    if (line < head) moved[line] = words;
    else if (line >= old.length - tail) moved[line + by] = words;
    else if (line < now.length - tail) moved[line] = words;
  }
  return moved;
}

export function withNote(notes, line, words) {
  const { [line]: gone, ...others } = notes, clean = cleanNote(words);
  return clean ? { ...others, [line]: clean } : others;
}

// As text, a note a line: its line from 1 on, and its words. What is no note is left out.
export const notesText = notes => Object.entries(notes).map(([line, words]) => `${Number(line) + 1} ${words}`).join('\n');
export function readNotes(text) {
  const notes = {};
  for (const row of text.split('\n').slice(0, MOST_NOTES)) {
    const [, line, words] = /^(\d{1,7}) (.*)$/.exec(row) || [];
    if (line > 0 && cleanNote(words)) notes[line - 1] = cleanNote(words);
  }
  return notes;
}
