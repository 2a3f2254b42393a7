// Where the threads are in the text: chips beside their lines, the line of the last event, and those that are out of sight.
// Tried by web/test/lecture.mjs.

import { byId, chip, el, renew, whenDrawn } from '../dom.js';
import { waitAt } from '../stretches.js';
import { isNewlyPointed, pointedLine } from '../pointed.js';
import { current } from './editor.js';
import { placeFor, rowOf, rows, scrollEditor } from './rows.js';

const MOST_CHIPS = 3, COLUMNS = ['gutter', 'numbers', 'paint', 'instructions'];
const followed = { refusal: null };

// `follow` says whether what has changed should come into sight.
export function drawPlaces(bench, follow = true) {
  const here = current(bench) ? threadsByLine(bench) : new Map(), { last } = bench.run ? bench : {};
  drawChips(bench, here);
  const marks = new Map();
  if (current(bench)) for (const { status, pc } of bench.state.threads) if (status === 'runs') mark(marks, instructionOf(pc), ['here']);
  const line = last && last.pc >= 0 && current(bench) ? bench.names.line(last.pc) : -1;
  if (line >= 0) for (const column of COLUMNS) mark(marks, rowOf(column, line), ['last', last.reply]);
  const pointed = pointedLine(bench.text);
  if (pointed >= 0) for (const column of COLUMNS) mark(marks, rowOf(column, pointed), ['pointed']);
  light(marks);
  const seen = line >= 0 ? line : !last && here.size ? Math.min(...here.keys()) : -1;
  if (isNewlyPointed()) whenDrawn(() => bringInSight(pointed));
  else if (follow) whenDrawn(() => keepInSight(bench, seen, [...here.keys()]));
  whenDrawn(() => { const away = threadsAway(here); return () => drawAway(bench, away); });
}

function threadsByLine(bench) {
  const here = new Map();
  bench.state.threads.forEach((thread, t) => {
    if (thread.status !== 'runs') return;
    const line = bench.names.line(thread.pc);
    if (here.has(line)) here.get(line).push(t); else here.set(line, [t]);
  });
  return here;
}

// Chips at the lines where there are threads, and none where there were some.
let chipped = new Set();
function drawChips(bench, here) {
  const now = new Set();
  for (const [line, threads] of here) {
    const row = rowOf('gutter', line);
    if (!row) continue;
    renew(row, chipsOf(bench, threads));
    now.add(row);
  }
  for (const row of chipped) if (!now.has(row)) renew(row);
  chipped = now;
}

// Elements with classes that they have only now: those that had some and have them no more lose them.
let lit = new Map();
const mark = (marks, element, classes) => { // the painted text may be newer
  if (element) marks.set(element, [marks.get(element), ...classes].filter(Boolean).join(' '));
};
function light(marks) {
  for (const [element, classes] of lit) if (marks.get(element) !== classes) element.classList.remove(...classes.split(' '));
  for (const [element, classes] of marks) element.classList.add(...classes.split(' '));
  lit = marks;
}

const instructionOf = pc => byId('instructions').querySelector(`[data-pc="${pc}"]`);

function chipsOf(bench, threads) {
  const acted = bench.last ? bench.last.thread : -1;
  const order = [...threads].sort((a, b) => (b === acted) - (a === acted) || a - b);
  const few = order.length > MOST_CHIPS ? order.slice(0, MOST_CHIPS - 1) : order;
  const chips = few.map(t => chip(t, waitAt(bench.stretches, t, bench.position) ? 'blk' : ''));
  if (few.length < order.length) chips.push(el('span', { class: 'chip many', title: 'threads ' + order.join(', ') },
    '+' + (order.length - few.length)));
  return chips;
}

// The line of the last event comes into sight, with those of the other threads where there is room; of a text that is refused, the line of
// the refusal, once.
function keepInSight(bench, line, others) {
  const { refusal } = bench, isNew = refusal && followed.refusal !== refusal;
  followed.refusal = refusal;
  if (document.activeElement === byId('text')) return null;
  const top = isNew && refusal.line ? placeFor(refusal.line - 1, [])
    : line >= 0 && !refusal ? placeFor(line, [endOfList(line), ...others]) : null;
  return top === null ? null : () => scrollEditor(top);
}

// The line at which the list ends that begins at a line: without the instructions it has several.
function endOfList(line) {
  const height = rowOf('instructions', line)?.querySelector('.takes')?.offsetHeight || 0;
  return line + Math.max(0, Math.ceil(height / rows.height - 1.2));
}

function bringInSight(line) {
  const top = line < 0 ? null : placeFor(line, []);
  return top === null ? null : () => scrollEditor(top);
}

// Threads whose lines are above or below what is in sight: [line, threads].
function threadsAway(here) {
  const { scrollTop, clientHeight } = byId('editor');
  const isAway = line => (line + 0.5) * rows.height < scrollTop || (line + 0.5) * rows.height > scrollTop + clientHeight;
  return [...here].filter(([line]) => isAway(line)).sort(([a], [b]) => a - b)
    .map(([line, threads]) => [line, threads, line * rows.height < scrollTop]);
}
function drawAway(bench, away) {
  renew(byId('away'), away.slice(0, 4).map(([line, threads, above]) => el('button', { class: 'link', 'data-keep': 'away-' + line,
    onclick: () => scrollEditor(placeFor(line, []) ?? 0) }, chipsOf(bench, threads), ` line ${line + 1} ${above ? '↑' : '↓'}`)));
}
