// What could not be opened and why, in plain words. It stays until it is closed: a message that goes by itself is missed by who looks at
// his files, and several files may be refused at once.
// Tried by web/test/opening.mjs.

import { byId, el, renew, withCode } from '../dom.js';

const told = [];

function draw() {
  const box = byId('trouble');
  box.hidden = !told.length;
  renew(box, told.map(({ name, words, refused }) => el('p', {}, el('b', {}, `${refused ? '✕' : '!'} ${name}: `), withCode(words))),
    el('button', { id: 'trouble-close', 'data-keep': 'trouble-close', title: 'Close this (Esc)', onclick: closeTrouble }, 'Close'));
}

// `refused` says that nothing came of it.
export function tellTrouble(name, words, refused = true) {
  const clean = name.replace(/\p{Cf}/gu, '');
  if (!told.some(other => other.name === clean && other.words === words)) told.push({ name: clean, words, refused });
  draw();
}
// Answers whether there was something to close.
export function closeTrouble() {
  const was = told.length > 0;
  told.length = 0;
  draw();
  return was;
}
