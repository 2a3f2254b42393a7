// Through which release and grant the event that is shown comes after the last one of another thread that is in conflict with it: on a
// cell that both touch, and one of them writes (docs/RACES.md). The search goes back event by event, a few at a time, so that no step
// waits for it.
// Tried by web/test/order.mjs.

import { accessOf, conflict, isGrant, isRelease, touches } from './access.js';

const SLICE = 4; // milliseconds of one look
const NEAR = 400; // events
// Modes that two threads do not hold at one node at once, each pair once.
const APART = /^(IS X|IX S|IX SIX|IX X|S SIX|S X|SIX SIX|SIX X|X X)$/;
const apart = (a, b) => APART.test(`${a} ${b}`) || APART.test(`${b} ${a}`);

// `told`: { second }, with `first`, `cell`, and `release`, `grant`, `node` and its modes where they are; `over` once it is looked for.
const order = { on: false, event: null, told: null, kept: -1, timer: 0, next: 0 };

export const orderIsOn = () => order.on;
export const isLooking = () => order.timer > 0;
export const orderTold = () => (order.on ? order.told : null);
// The four events, in their order; fewer where there is no release and grant between.
export const orderEvents = () => {
  const { first, release, grant, second } = orderTold() || {};
  return first === undefined ? [] : [...new Set([first, release, grant, second])].filter(k => k !== undefined);
};

function rest() {
  clearTimeout(order.timer);
  order.timer = 0;
}
export function setOrder(bench, on) {
  rest();
  Object.assign(order, { on, event: null, told: null, kept: -1 });
  bench.changed('order');
}

// Goes to the next of the four, round; they stay while one goes so.
export function nextOfOrder(bench) {
  const events = orderEvents(), at = bench.position - 1;
  if (events.length) goToOrder(bench, events.find(k => k > at) ?? events[0]);
  return events.length > 0;
}
export function goToOrder(bench, k) {
  order.kept = k + 1;
  return bench.go(k + 1);
}

// The last event before a position that is in conflict with an earlier one, both not far from it; -1 where there is none.
export function lastInConflict(run, position) {
  for (let second = position - 2; second >= Math.max(0, position - NEAR); second--) {
    const own = accessOf(run, second), { thread } = run.events[second];
    for (let k = second - 1; touches(own) && k >= Math.max(0, second - NEAR); k--)
      if (run.events[k].thread !== thread && conflict(accessOf(run, k), own)) return second;
  }
  return -1;
}

// To be called when the page is drawn.
export function followOrder(bench) {
  const { run, position } = bench, { told } = order;
  if (!order.on || !run) return;
  if (told && order.event === run.events[told.second] && (position === order.kept || position === told.second + 1)) return;
  rest();
  const second = position - 1;
  Object.assign(order, { event: bench.last, told: { second, over: !position }, kept: -1, next: second - 1 });
  if (position) look(bench, run);
}

function look(bench, run) {
  const { told } = order, own = accessOf(run, told.second), { thread } = run.events[told.second], until = performance.now() + SLICE;
  told.touches = touches(own);
  if (told.touches) for (; order.next >= 0; order.next--) {
    if (run.events[order.next].thread !== thread) told.cell = conflict(accessOf(run, order.next), own);
    if (told.cell || performance.now() > until) break;
  }
  if (told.cell) Object.assign(told, { first: order.next, over: true }, between(run, order.next, told.second));
  else if (!told.touches || order.next < 0) told.over = true;
  else order.timer = setTimeout(() => lookOn(bench, run, told));
}
function lookOn(bench, run, told) {
  order.timer = 0;
  if (bench.run !== run || order.told !== told || run.events[told.second] !== order.event) return;
  order.next--;
  look(bench, run);
  if (told.over) bench.changed('order');
}

// The first event behind it in which the first thread gives back all that it holds, and the last in which the second is granted a list.
function between(run, first, second) {
  const { events } = run, by = (k, other) => events[k].thread === events[other].thread;
  let release = first + 1, grant = second;
  while (release < second && !(by(release, first) && isRelease(run, events[release]))) release++;
  while (grant > release && !(by(grant, second) && isGrant(run, events[grant]))) grant--;
  return grant > release ? { release, grant, ...handedOver(run, release, grant) } : {};
}

// The node that goes from the one to the other, the innermost one, if it goes at once.
function handedOver(run, release, grant) {
  const { events } = run, held = run.view(release).threads[events[release].thread].held;
  const got = run.view(grant + 1).threads[events[grant].thread].held, rank = node => ['leaf', 'class', 'root'].indexOf(node.split(' ')[0]);
  const [node] = [...got.keys()].filter(at => held.has(at) && apart(held.get(at), got.get(at))).sort((a, b) => rank(a) - rank(b));
  return node ? { node, gives: held.get(node), gets: got.get(node) } : {};
}
