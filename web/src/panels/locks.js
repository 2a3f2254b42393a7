// The lock tree as a table: nodes down, threads across; held modes solid, the
// request of a blocked thread dashed, a clash crossed with the holder framed.
// What stands in data-held and data-asks is compared with the program by web/test/views.mjs and panels.mjs.

import { byId, el, chip, renew, threadColour, whenDrawn } from '../dom.js';
import { placeIn } from './sections.js';
import { classLink } from './classes.js';
import { MEANING } from '../modes.js';
import { waitAt } from '../stretches.js';

const MOST_COLUMNS = 16;
// How a mode is filled, as a class of the style; its colour is that of the thread.
const look = mode => (mode === 'X' || mode === 'SIX' ? 'x' : mode === 'S' ? 's' : 'i');

// Draws the tree of locks: a row for each node, and in it who holds it in which mode, and who waits for it.
export function drawLocks(bench) {
  const waits = waitingRequests(bench);
  const threads = columns(bench, waits);
  const nodes = rows(bench, waits, threads);
  const clashes = new Map();
  for (const { clashes: found } of waits.values()) for (const c of found) clashes.set(c.node + '/' + c.thread, true);
  const body = nodes.map(node => el('tr', { key: node }, el('th', { scope: 'row' }, nodeName(bench, node)),
    threads.map(t => cell(bench, node, t, waits.get(t), clashes))));
  const heading = el('tr', {}, el('th', { scope: 'col' }, 'node'),
    threads.map(t => el('th', { scope: 'col' }, chip(t, waits.has(t) ? 'blk' : ''))));
  renew(byId('locks'), el('thead', {}, heading), el('tbody', {}, body));
  whenDrawn(placeClash);
}
// Below the threads, which stay where they are.
function placeClash() {
  const clash = byId('locks').querySelector('.wish.no');
  return clash && placeIn(byId('locks').parentElement, clash, byId('locks').tHead);
}
export const keepClash = () => placeClash()?.();

// Threads that wait at the position, with what they ask for now.
function waitingRequests(bench) {
  const waits = new Map();
  for (let t = 0; t < bench.run.threads; t++) if (waitAt(bench.stretches, t, bench.position)) waits.set(t,
    bench.run.request(bench.position, t));
  return waits;
}

function columns(bench, waits) {
  const all = bench.state.threads.map((_, t) => t);
  if (bench.run.threads <= 8) return all;
  const acted = bench.last ? bench.last.thread : -1;
  const inTheWay = waits.has(acted) ? waits.get(acted).clashes.map(c => c.thread) : [];
  const rank = t => (t === acted ? 0 : inTheWay.includes(t) ? 1 : bench.state.threads[t].held.size ? 2 : 3);
  return all.filter(t => rank(t) < 3 || waits.has(t)).sort((a, b) => rank(a) - rank(b)).slice(0, MOST_COLUMNS);
}

function rows(bench, waits, threads) {
  const nodes = new Set(['root']);
  if (bench.program.classes <= 6) for (let c = 0; c < bench.program.classes; c++) nodes.add('class ' + c);
  for (const { held } of bench.state.threads) for (const node of held.keys()) nodes.add(node);
  for (const t of threads) if (waits.has(t)) for (const node of waits.get(t).nodes.keys()) nodes.add(node);
  const classOf = node => bench.run.classOf(bench.position, Number(node.slice(5).split('.')[0]));
  for (const node of [...nodes]) if (node.startsWith('leaf')) nodes.add('class ' + classOf(node));
  const key = node => {
    const [object, offset] = node.slice(5).split('.').map(Number);
    return node === 'root' ? [0, 0, 0, 0] : node.startsWith('class') ? [1, Number(node.slice(6)), -1, 0] : [1,
      bench.run.classOf(bench.position, object), object, offset];
  };
  return [...nodes].sort((a, b) => key(a).map((x, i) => x - key(b)[i]).find(d => d) || 0);
}

// A cell of an object by the one global that points to the object, as *cid or cid[1]; none where there is no such, or several.
function pathTo(bench, node) {
  const [object, cell] = node.slice(5).split('.').map(Number), globals = bench.program.globals.length;
  const from = bench.state.objects.slice(0, globals).flatMap(([value], g) => (value === `addr ${object}.0` ? [bench.names.global(g)] : []));
  return object < globals || from.length !== 1 ? '' : cell ? `${from[0]}[${cell}]` : '*' + from[0];
}

function nodeName(bench, node) {
  if (node === 'root') return el('b', {}, 'root');
  if (node.startsWith('class')) return ['└ ', el('b', {}, node), ' ',
    el('span', { class: 'soft' }, bench.names.classMembers(Number(node.slice(6)))), ' ',
    classLink(bench, Number(node.slice(6)), 'tree', 'why')];
  const path = pathTo(bench, node);
  return el('span', { class: 'leaf' }, '└ ', path ? [el('b', {}, path), ' ', bench.names.cell(node.slice(5))]
    : el('b', {}, bench.names.cell(node.slice(5))), ' ', el('span', { class: 'soft' }, node));
}

function cell(bench, node, t, wait, clashes) {
  const mode = bench.state.threads[t].held.get(node), asked = wait && wait.nodes.get(node);
  return el('td', { style: threadColour(t) }, mode ? heldMode(node, t, mode, clashes.has(node + '/' + t)) : null,
    asked ? wish(node, t, asked, wait) : null);
}

const heldMode = (node, t, mode, framed) => el('span', { class: `mode ${look(mode)}${framed ? ' clash' : ''}`,
  'data-held': `held ${t} ${node} ${mode}`,
  title: `thread ${t} holds ${mode}: ${MEANING[mode]}${framed ? '; it is in the way' : ''}` }, mode);

function wish(node, t, asked, wait) {
  const no = wait.clashes.some(c => c.node === node);
  return el('span', { class: 'wish' + (no ? ' no' : ''), 'data-asks': `asks ${t} ${node} ${asked}`,
    title: `thread ${t} asks ${asked}: ${MEANING[asked]}` },
    (no ? '✕ ' : '') + asked + '?');
}
