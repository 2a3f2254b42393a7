// A refusal of the text, below it: line, column, the line with a caret, plain words. The line is shown again, since its own place may be
// scrolled away, and it may have marks that cannot be seen there.
// Tried by web/test/using.mjs and web/test/shares.mjs.

import { byId, el, renew, withCode } from '../dom.js';

export function drawComplaint(bench, goTo) {
  const box = byId('complaint'), { refusal } = bench;
  box.hidden = !refusal;
  if (!refusal) return;
  box.classList.toggle('of-lists', Boolean(refusal.ofLists)); // (the panel of the lists tells it)
  const where = refusal.line ? `Line ${refusal.line}, column ${refusal.column}`
    : refusal.unfinished ? 'The program is not compiled' : 'The program is refused';
  const begin = Math.max(0, refusal.column - 40);
  renew(box,
    el('div', {}, el('b', {}, '✕ ' + where + ': '), withCode(refusal.words),
      refusal.hint ? ['; ', el('em', {}, withCode(refusal.hint))] : null),
    refusal.line ? el('pre', {}, refusal.row.slice(begin, begin + 78).replace(/\p{Cf}/gu, '\uFFFD'), '\n',
      ' '.repeat(refusal.column - 1 - begin), el('b', {}, '^'.repeat(Math.min(refusal.length, 40)))) : null,
    el('div', { class: 'soft' }, refusal.unfinished ? null : ['The toolchain says ', el('code', {}, refusal.name), '. '],
      bench.run ? 'The run is of the last text that compiled. ' : '',
      refusal.line ? el('button', { class: 'link', onclick: () => goTo(refusal.at) }, 'go there') : null,
      refusal.unfinished ? el('button', { class: 'link', onclick: () => bench.build() }, 'try again') : null));
}
