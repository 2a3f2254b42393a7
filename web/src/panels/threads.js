// Each thread: what it is at, why it waits, its registers by variable name. Of more than eight those have a box that step or hold
// something; the others would hide them.
// Tried by web/test/views.mjs and web/test/panels.mjs.

import { byId, el, chip, threadColour, count, renew, whenDrawn } from '../dom.js';
import { functionAt } from '../program.js';
import { countBefore, waitAt } from '../stretches.js';
import { showWriter, writerOfRegister } from '../writers.js';
import { placeIn } from './sections.js';

export function drawThreads(bench, change) {
  const { threads } = bench.run.viewWithFrames(bench.position);
  const rest = [], boxes = [];
  threads.forEach((thread, t) => {
    const near = (bench.last && bench.last.thread === t) || (bench.next && bench.next.thread === t);
    if (threads.length > 8 && !near && !thread.held.size) rest.push(t);
    else boxes.push(threadBox(bench, thread, t, change));
  });
  if (rest.length) boxes.push(el('p', { key: 'rest', class: 'legend' }, 'others (hatched: blocked, dashed: ended): ',
    rest.map(t => chip(t, lookOf(bench, t)))));
  renew(byId('threads'), boxes);
  // the thread of the last event comes into sight, from its top frame on
  const acted = byId('threads').querySelector('.acted > .line');
  if (acted) whenDrawn(() => placeIn(byId('threads'), acted));
}

const lookOf = (bench, t) => (bench.ended(t) ? 'end' : waitAt(bench.stretches, t, bench.position) ? 'blk' : '');

function threadBox(bench, thread, t, change) {
  const acted = change.thread === t;
  const runs = `thread ${t} pc ${thread.pc} depth ${thread.depth}`;
  const told = thread.status === 'runs' ? runs : `thread ${t} ${thread.status} ${thread.value ?? thread.fault}`;
  return el('div', { key: t, class: 'thread' + (acted ? ' acted' : ''), style: threadColour(t), 'data-thread': told,
    role: 'group', 'aria-label': `thread ${t}` },
    el('div', { class: 'line' }, chip(t, lookOf(bench, t)), status(bench, thread, t),
      thread.status === 'runs' ? el('span', { class: 'soft code' },
        `${bench.names.functionAt(thread.pc)}, pc ${thread.pc}`) : null),
    waiting(bench, t),
    registers(bench, t, 0, { ...thread, function: functionAt(bench.program, thread.pc) }, acted ? change.registers : []),
    thread.frames.slice(1).map((frame, i) => waitingFrame(bench, t, i + 1, frame)));
}

// A frame that waits for the one above it: its function, where it continues, its registers.
function waitingFrame(bench, t, level, frame) {
  return el('details', { class: 'frame', 'data-frame': `frame ${t} ${level} fn ${frame.function} pc ${frame.pc}` },
    el('summary', {}, 'called from ', el('code', {}, bench.names.function(frame.function)), `, continues at pc ${frame.pc}`),
    registers(bench, t, level, frame, []));
}

function status(bench, thread, t) {
  if (thread.status === 'done') return el('span', {}, '✓ done with ', el('b', {}, bench.names.value(thread.value)));
  if (thread.status === 'failed') return el('span', { class: 'is-fault' }, '▲ failed: ',
    bench.names.missing(thread.fault) || thread.fault);
  if (waitAt(bench.stretches, t, bench.position)) return el('span', { class: 'is-blocked' }, '⊠ blocked');
  if (thread.depth) return el('span', {}, thread.depth > 1 ? `in a section, depth ${thread.depth}` : 'in a section');
  return el('span', {}, 'runs');
}

function waiting(bench, t) {
  const wait = waitAt(bench.stretches, t, bench.position);
  if (!wait) return null;
  const tries = countBefore(wait.tries, bench.position);
  const clash = bench.run.request(bench.position, t).clashes[0];
  const why = clash ? `T${clash.thread} holds ${clash.holds} at ${bench.names.shortNode(clash.node)}` : 'nothing is in its way now';
  return el('div', { class: 'waits' }, `since event ${wait.from}, ${count(tries, 'try', 'tries')}; ${why}`);
}

function register(bench, t, level, f, r, value, changed, keep) {
  const name = bench.names.register(f, r);
  const told = level ? `local ${t} ${level} ${r} ${value}` : `reg ${t} ${r} ${value}`;
  return el('button', { class: 'register' + (changed ? ' changed' : ''), 'data-register': told, 'data-keep': keep,
    title: 'to the event that wrote it (w)', onclick: () => showWriter(bench, `${name} of T${t}`,
      (run, position) => writerOfRegister(run, position, t, level, r)) }, el('i', {}, name), ' ', bench.names.value(value));
}

// The registers of a frame, which keeps its number while others come and go above it.
function registers(bench, t, level, frame, changed) {
  const below = Math.max(bench.state.threads[t].frames.length - 1, 0) - level;
  return el('div', { class: 'registers' }, frame.registers.map((value, r) =>
    register(bench, t, level, frame.function, r, value, changed.includes(r), `register-${t}-${below}-${r}`)));
}
