// Which lines of the text are drawn: all of a short one; of a long one those in sight, and some round them. The columns of the editor have
// room for all, so that they scroll as if all were there.
// Tried by web/test/large.mjs.

import { byId, renew, textSize } from '../dom.js';

const ALL = 500, AROUND = 60, STEP = 30;
const COLUMNS = ['gutter', 'numbers', 'paint', 'instructions'];
const box = { top: 0, height: 900 }; // of the editor, as it stood last
export const rows = { from: 0, to: 0, total: 0, height: 21 };

// The lines that are to be drawn, where the editor stands at `box`.
function wanted(total) {
  if (total <= ALL) return { from: 0, to: total };
  const first = Math.min(box.top / rows.height, total), from = Math.floor(Math.max(0, first - AROUND) / STEP) * STEP;
  return { from, to: Math.min(total, from + Math.ceil(box.height / rows.height / STEP) * STEP + 2 * AROUND + STEP) };
}

// Makes room for so many lines, and says which are drawn.
export function placeRows(total) {
  const height = Math.round(textSize() * (document.body.matches('.lecture') ? 1.26 : 1.42)), { from, to } = wanted(total);
  if (height !== rows.height) document.documentElement.style.setProperty('--row', height + 'px');
  if (from !== rows.from || total !== rows.total || height !== rows.height) {
    for (const column of COLUMNS) byId(column).style.paddingTop = from ? from * height + 'px' : '';
    byId('code').style.minHeight = total * height + 'px';
  }
  return Object.assign(rows, { from, to, total, height });
}

// To be called when the editor was scrolled or has another size; answers whether other lines are in sight than those that are drawn.
export function editorMoved() {
  const editor = byId('editor');
  Object.assign(box, { top: editor.scrollTop, height: editor.clientHeight });
  const first = box.top / rows.height, last = (box.top + box.height) / rows.height;
  return rows.total > ALL && (first < rows.from || (last > rows.to && rows.to < rows.total));
}

// The row of a line in a column; none where it is not drawn.
export const rowOf = (column, line) => (line < rows.from || line >= rows.to ? undefined : byId(column).children[line - rows.from]);
// Draws the rows of a column, each by its line.
export const renewRows = (column, row) => renew(byId(column), Array.from({ length: rows.to - rows.from }, (_, i) => row(rows.from + i)));

// Where the editor should be scrolled to, so that a line is in sight, and with it others, as far as there is room, the nearest first; null
// where it may stay.
export function placeFor(line, others) {
  const { scrollTop, clientHeight, scrollHeight } = byId('editor');
  Object.assign(box, { top: scrollTop, height: clientHeight });
  if (scrollHeight <= clientHeight) return null;
  const edge = parseFloat(getComputedStyle(byId('sheet')).paddingTop), room = clientHeight - 2;
  let from = line, to = line;
  for (const other of others.toSorted((a, b) => Math.abs(a - line) - Math.abs(b - line))) {
    const [first, last] = [Math.min(from, other), Math.max(to, other)];
    if ((last - first + 1) * rows.height <= room) [from, to] = [first, last];
  }
  const top = from * rows.height + edge, bottom = top + (to - from + 1) * rows.height;
  if (top >= scrollTop && bottom <= scrollTop + clientHeight) return null;
  // (at a whole line, where that leaves them in sight)
  const middle = Math.max(0, (top + bottom - clientHeight) / 2), whole = Math.floor((middle - edge) / rows.height) * rows.height + edge;
  return whole > 0 && bottom <= whole + clientHeight ? whole : middle;
}
export const scrollEditor = top => { byId('editor').scrollTop = box.top = top; };
