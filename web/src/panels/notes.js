// Notes of one's own on lines: below the program as a list, since in the text they are painted, where no key reaches them; and the dialog
// that writes one.
// Tried by web/test/notes.mjs and web/test/keeping.mjs.

import { byId, el, renew } from '../dom.js';
import { MOST_LETTERS, withNote } from '../notes.js';
import { openDialog } from '../page.js';

export function drawNotes(bench) {
  const box = byId('notes'), all = Object.entries(bench.notes);
  box.hidden = !all.length;
  renew(box, all.map(([line, words]) => el('li', { key: line }, el('button', { class: 'link', 'data-keep': 'note-' + line,
    title: 'Change or remove this note', onclick: () => writeNote(bench, Number(line)) }, `line ${Number(line) + 1}`), ' ', words)));
}

// The line that a note is meant for: that of the cursor, if one has written or clicked in the text, else that of the last event.
function lineMeant(bench) {
  const at = byId('text').selectionStart;
  if (at) return bench.text.slice(0, at).split('\n').length - 1;
  const { last } = bench.run ? bench : {};
  return last && last.pc >= 0 ? bench.names.line(last.pc) : 0;
}

export function writeNote(bench, line = lineMeant(bench)) {
  const lines = bench.text.split('\n').length;
  const take = () => {
    const number = Math.max(1, Math.min(lines, Number(byId('note-number').value) || 1)) - 1, words = byId('note-words').value;
    byId('dialog').close();
    bench.setNotes(withNote(bench.notes, number, words));
  };
  const onkeydown = event => { if (event.key === 'Enter') { event.preventDefault(); take(); } };
  openDialog('A note on a line', el('p', {}, el('label', {}, 'line ', el('input', { id: 'note-number', type: 'number', min: 1, max: lines,
    onkeydown })), ' ',
  el('label', {}, 'note ', el('input', { id: 'note-words', type: 'text', size: 44, maxlength: MOST_LETTERS, onkeydown })),
  ' ', el('button', { id: 'note-take', onclick: take }, 'Write it')),
  el('p', { class: 'soft' }, 'It stands behind its line and goes with the link. Without words it is removed.'));
  byId('note-number').value = line + 1;
  byId('note-words').value = bench.notes[line] || '';
  byId('note-words').focus();
}
