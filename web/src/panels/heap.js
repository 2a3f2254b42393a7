// The heap: objects as rows of cells, chains laid out from the globals, arrows
// between them, the registers that point at each, the locks on each cell.
// Tried by web/test/views.mjs and web/test/panels.mjs.

import { byId, el, svg, threadColour, count, renew, setText, textSize, whenDrawn } from '../dom.js';
import { showWriter, writerOfCell } from '../writers.js';

const MOST_OBJECTS = 28, MOST_CELLS = 16, MOST_TAGS = 6;
const target = value => (value.startsWith('addr ') ? Number(value.slice(5).split('.')[0]) : -1);

export function drawHeap(bench, change) {
  const tags = tagsOf(bench), locks = locksOf(bench);
  const { rows, seen } = layout(bench, [...tags.keys()].map(place => Number(place.split('.')[0])), change.objects);
  const boxes = rows.map(row => el('div', { class: 'chain' }, row.map(o => objectBox(bench, o, tags, locks, change))));
  const hidden = bench.state.objects.length - seen.size;
  const other = renew(byId('heap'), svg('svg', { class: 'arrows' }), boxes,
    hidden ? el('p', { class: 'legend' }, `and ${count(hidden, 'more object')}, not drawn`) : null);
  setText(byId('heap-note'), count(bench.state.objects.length, 'object'));
  whenDrawn(() => drawArrows(bench, seen, other));
}

// place -> [[thread, name]..]: the registers that hold this address.
function tagsOf(bench) {
  const tags = new Map();
  bench.state.threads.forEach((thread, t) => thread.registers.forEach((value, r) => {
    if (!value.startsWith('addr ')) return;
    const place = value.slice(5);
    if (!tags.has(place)) tags.set(place, []);
    tags.get(place).push([t, bench.names.registerAt(thread.pc, r)]);
  }));
  return tags;
}

function locksOf(bench) {
  const locks = new Map();
  bench.state.threads.forEach((thread, t) => thread.held.forEach((mode, node) => {
    if (!node.startsWith('leaf ')) return;
    const place = node.slice(5);
    if (!locks.has(place)) locks.set(place, []);
    locks.get(place).push([t, mode]);
  }));
  return locks;
}

// Globals first, then what registers point at, then what is new; each followed
// along its pointers, so that a list lies in one row.
function layout(bench, pointed, made) {
  const { objects } = bench.state;
  const queue = [...bench.program.globals.keys(), ...pointed, ...made];
  const seen = new Set(), rows = [];
  while (queue.length && seen.size < MOST_OBJECTS) {
    const row = [];
    for (let o = queue.shift(); o >= 0 && !seen.has(o) && seen.size < MOST_OBJECTS;) {
      seen.add(o);
      row.push(o);
      const next = objects[o].slice(0, MOST_CELLS).map(target).filter(p => p >= 0 && !seen.has(p));
      queue.unshift(...next.slice(1));
      o = next.length ? next[0] : -1;
    }
    if (!row.length) continue;
    const last = rows.at(-1);
    if (row.length === 1 && last && last.single) last.push(row[0]);
    else { row.single = row.length === 1; rows.push(row); }
  }
  return { rows, seen };
}

function objectBox(bench, o, tags, locks, change) {
  const cells = bench.state.objects[o];
  const mine = cells.flatMap((_, f) => (tags.get(`${o}.${f}`) || []).map(([t, name]) => [t, name + (f ? ` → [${f}]` : '')]));
  const fresh = bench.state.threads.findIndex(thread => thread.fresh.includes(o));
  return el('div', { key: o, class: 'object' + (fresh >= 0 ? ' fresh' : '') + (change.objects.includes(o) ? ' made' : ''),
    id: 'object-' + o, role: 'group', 'aria-label': bench.names.object(o),
    'data-object': `object ${o} ${bench.run.classOf(bench.position, o)} ${cells.length}` },
    el('div', { class: 'tags' }, mine.slice(0,
      MOST_TAGS).map(([t, name]) => el('span',
      { class: 'tag', style: threadColour(t), title: `${name} of thread ${t} points here` }, `T${t} ${name}`)),
      mine.length > MOST_TAGS ? '+' + (mine.length - MOST_TAGS) : null),
    el('div', { class: 'title' }, el('b', {}, bench.names.object(o)), ` class ${bench.run.classOf(bench.position, o)}`,
      fresh >= 0 ? el('em', { title: 'made in the open section; needs no lock until it ends' }, ` fresh for T${fresh}`) : null),
    el('div', { class: 'cells' }, cells.slice(0,
      MOST_CELLS).map((value, f) => cellBox(bench, o, f, value, cells.length, locks, change)),
      cells.length > MOST_CELLS ? ` … ${cells.length} cells` : null));
}

function cellBox(bench, o, f, value, size, locks, change) {
  const place = `${o}.${f}`;
  return el('button', { class: 'cell' + (change.cells.includes(place) ? ' changed' : ''), id: `cell-${o}-${f}`,
    'data-cell': `cell ${place} ${value}`, 'data-keep': 'cell-' + place, title: 'to the event that wrote it (w)',
    onclick: () => showWriter(bench, bench.names.cell(place), (run, position) => writerOfCell(run, position, place)) },
    el('small', {}, size > 1 ? `[${f}]` : '\u00a0',
      el('span', { class: 'on-cell' }, (locks.get(place) || []).slice(0, 2).map(([t, mode]) =>
      el('span', { style: threadColour(t), title: `thread ${t} holds ${mode} on this cell` }, ` ${mode}·T${t}`)))),
    bench.names.value(value));
}

// The arrows are where they were if the heap is as it was, as wide and with letters as large.
let arrowsFor = '';
function drawArrows(bench, seen, other) {
  const heap = byId('heap'), frame = heap.getBoundingClientRect(), routes = [], room = `${frame.width} ${textSize()}`;
  if (!other && arrowsFor === room) return null;
  arrowsFor = room;
  const left = frame.left - heap.scrollLeft, top = frame.top - heap.scrollTop;
  for (const o of seen) bench.state.objects[o].slice(0, MOST_CELLS).forEach((value, f) => {
    const from = byId(`cell-${o}-${f}`), to = byId('object-' + target(value));
    if (from && to) routes.push(route(from, to, left, top, f));
  });
  return () => renew(heap.firstChild, routes.map(d => svg('path', { d, 'marker-end': 'url(#arrow-head)', class: 'pointer' })));
}

// Straight to the next box where nothing lies between; below the box's other
// cells where the target is in the row; else round above the target.
function route(from, to, left, top, f) {
  const a = from.getBoundingClientRect(), b = to.querySelector('.cells').getBoundingClientRect();
  const x0 = a.right - left - 5, y0 = a.top + a.height * 0.68 - top, x1 = b.left - left - 1, y1 = b.top + b.height / 2 - top;
  const inRow = Math.abs(a.top - b.top) < 26 && x1 > x0;
  const adjacent = to.previousElementSibling === from.closest('.object');
  if (inRow && adjacent && !from.nextElementSibling) return `M${x0},${y0}L${x1},${y1}`;
  if (inRow) return `M${(a.left + a.right) / 2 - left},${a.bottom - top}v${6 + 3 * (f % 3)}H${x1 - 12}V${y1 + 6}H${x1}`;
  const over = to.getBoundingClientRect().top - top - 7;
  return `M${x0},${y0}h9V${over}H${x1 - 14}V${y1}H${x1}`;
}
