// The heads of the lanes: buttons that step a thread. They stand beside the drawing and not in it, since keys and screen readers reach
// buttons alone.
// Tried by web/test/using.mjs and web/test/lessons.mjs.

import { el, chip, threadColour } from '../dom.js';
import { waitAt } from '../stretches.js';

export const TOP = 24; // where the first lane begins
export const MANY = 12; // with more threads only those that do something are shown: no window is as high as all lanes

// Each says what comes next there: one who chooses a thread wants to know that before the step.
export function heads(bench, plan, scale, narrow) {
  return bench.state.threads.flatMap((thread, t) => {
    if (plan.lane[t] < 0) return [];
    const wait = waitAt(bench.stretches, t, bench.position);
    const look = thread.status !== 'runs' ? 'end' : wait ? 'blk' : '';
    const top = (TOP + plan.lane[t] * plan.step + 2) * scale;
    const digit = t < 10 ? `, key ${t}` : '';
    return el('button', { key: t, class: 'head' + (bench.last && bench.last.thread === t ? ' acted' : ''),
      style: `${threadColour(t)};top:${top}px;height:${(plan.step - 3) * scale}px`, 'data-step': t, 'data-keep': 'lane-' + t,
      title: thread.status === 'runs' ? `Step thread ${t}${digit}` : `Thread ${t} has ended`,
        'aria-label': headLabel(bench, thread, t), onclick: () => bench.step(t) },
    chip(t, look), narrow ? null : headWords(bench, thread, t, wait, plan),
      narrow || t > 9 || thread.status !== 'runs' ? null : el('kbd', {}, t));
  });
}

function headLabel(bench, thread, t) {
  if (thread.status !== 'runs') return `thread ${t} has ended`;
  return `step thread ${t}: ${bench.names.statement(thread.pc)}, ${bench.names.where(thread.pc)}`;
}

function headWords(bench, thread, t, wait, plan) {
  if (thread.status !== 'runs') return el('span', { class: 'todo soft' + (plan.step < 38 ? ' one' : '') },
    thread.status === 'done' ? '✓ done' : ['▲ fault', el('small', {}, bench.names.missing(thread.fault) || thread.fault)]);
  const words = el('code', {}, bench.names.statement(thread.pc));
  const where = el('small', {}, (!bench.asks && outlook(bench, thread, t, wait)) || bench.names.where(thread.pc));
  return el('span', { class: 'todo' + (plan.step < 38 ? ' one' : '') }, words, where);
}

// Whether the next step of a thread at an `atomic` would be blocked. (Where that is to be predicted, it is not told.)
function outlook(bench, thread, t, wait) {
  if (bench.run.threads > MANY || thread.depth || !bench.program.code[thread.pc].startsWith('acq ')) return wait ? '⊠ blocked' : '';
  const [clash] = bench.run.request(bench.position, t).clashes;
  if (wait) return el('span', { class: clash ? 'is-blocked' : 'is-free' },
    clash ? `⊠ blocked by T${clash.thread}` : '○ may go on now');
  return clash ? el('span', { class: 'is-blocked' }, `T${clash.thread} is in the way`) : '';
}
