// Two events in conflict, and the release and the grant between them: a row of up to four buttons, each of which goes to its event, and
// their marks in the timeline, by number.
// Tried by web/test/order.mjs.

import { byId, chip, el, renew, svg, withCode } from '../dom.js';
import { accessOf } from '../access.js';
import { followOrder, goToOrder, lastInConflict, nextOfOrder, orderEvents, orderIsOn, orderTold, setOrder } from '../order.js';
import { note } from '../page.js';

export const toggleOrder = bench => setOrder(bench, !orderIsOn());
// Turns it on, and then goes from one of the four to the next; where there are none, back to the last event that has some.
export function orderKey(bench) {
  if (!orderIsOn()) return setOrder(bench, true);
  if (!bench.run || nextOfOrder(bench)) return null;
  const k = lastInConflict(bench.run, bench.position);
  return k < 0 ? note('No event before this one is in conflict with one of another thread.') : bench.go(k + 1);
}

// What an event does to the cell, or which node it gives back or is granted.
function doing(bench, k, told) {
  const { run, names } = bench, { made, writes } = accessOf(run, k), isEntry = run.program.code[run.events[k].pc].startsWith('acq ');
  const at = !told.node || told.node === 'leaf ' + told.cell ? '' : ` at ${names.shortNode(told.node)}`;
  if (k === told.release) return `gives back ${told.node ? told.gives + at : 'all'}`;
  if (k === told.grant) return `is granted ${told.node ? told.gets + at : 'its list'}${k === told.second ? ', and reads for it' : ''}`;
  if (made >= 0) return 'makes it';
  return writes.includes(told.cell) ? 'writes' : isEntry ? 'reads for its list' : 'reads';
}

function steps(bench, told) {
  return orderEvents().map((k, i) => [i ? el('span', { class: 'soft' }, ' → ') : null,
    el('button', { key: i, 'data-keep': 'order-' + i, 'data-event': k, 'aria-current': k === bench.position - 1 ? 'true' : null,
      title: `To event ${k} (q goes from one to the next)`, onclick: () => goToOrder(bench, k) },
    el('b', { class: 'place' }, i + 1), ` ${k} `, chip(bench.run.events[k].thread), ' ', doing(bench, k, told))]);
}

function content(bench, told) {
  const { names } = bench, strong = words => el('b', {}, words);
  if (told.second < 0) return 'Show an event, to see what it comes after.';
  if (!told.over) return `Event ${told.second}: the last event in conflict is looked for ..`;
  if (!told.touches) return withCode(`Event ${told.second} touches no cell.`);
  if (!told.cell) return `Event ${told.second}: no earlier event of another thread is in conflict with it.`;
  const cell = [strong('Order'), ' at ', el('code', {}, names.cell(told.cell)), ': '];
  return [cell, steps(bench, told), told.release === undefined ? [' ', el('span', { class: 'is-fault' }, '▲ no lock orders them'),
    ': between the two stands no release of the first thread with a grant of the second behind it.'] : null];
}

export function drawOrder(bench) {
  const box = byId('s-order');
  byId('order').setAttribute('aria-pressed', String(orderIsOn()));
  box.hidden = !orderIsOn() || !bench.run;
  if (box.hidden) return;
  followOrder(bench);
  renew(box, content(bench, orderTold()));
}

// In the timeline: a ring and a number at each, at the edge the number alone of those out of sight, an arrow from the release to the
// grant.
export function orderMarks(bench, plan) {
  const told = orderTold(), { events } = bench.run, isSeen = k => k >= plan.from && k < plan.to && plan.lane[events[k].thread] >= 0;
  const size = Math.max(plan.mark * 1.5, 6), place = k => [plan.x(k), plan.y(events[k].thread)];
  const marks = orderEvents().map((k, i) => (isSeen(k) ? ring(i, k, place(k), size)
    : plan.isWindow && atEdge(plan, i, k, events[k].thread)));
  if (told?.release === undefined || !isSeen(told.release) || !isSeen(told.grant)) return marks;
  const [x0, y0] = place(told.release), [x1, y1] = place(told.grant), way = Math.sign(y1 - y0);
  return [svg('path', { key: 'handed over', class: 'order-arrow', 'marker-end': 'url(#arrow-head)',
    d: `M${x0},${y0 + way * size}L${x1},${y1 - way * (size + 2)}` }), marks];
}
const badge = (i, x, y) => [svg('circle', { cx: x, cy: y, r: 6.5, class: 'place' }), svg('text', { x, y: y + 4, class: 'middle' }, i + 1)];
const ring = (i, k, [x, y], size) => svg('g', { key: 'order ' + i, class: 'order-mark', 'data-event': k },
  svg('circle', { cx: x, cy: y, r: size }), badge(i, x, y + size + 3));
function atEdge(plan, i, k, thread) {
  if (plan.lane[thread] < 0) return null;
  const isLeft = k < plan.from, x = isLeft ? plan.left + 12 + 16 * i : plan.right - 60 + 16 * i, y = plan.y(thread) + plan.step * 0.3;
  return svg('g', { key: 'order ' + i, class: 'order-mark away', 'data-event': k }, svg('title', {}, `event ${k}, out of sight`),
    badge(i, x, y), svg('text', { x: isLeft ? x - 10 : x + 10, y: y + 4, class: 'middle way' }, isLeft ? '‹' : '›'));
}
