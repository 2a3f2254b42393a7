// Which cells the step of an event touches, and how (docs/RACES.md, "The words"): a load, a store, a new, and what the evaluation of a
// granted list reads. All of it stands in the states that the session prints before and after the event.
// Tried by web/test/order.mjs.

const NONE = { reads: [], writes: [], made: -1 };
const known = new WeakMap(); // by event: what a step touches does not change while the run has it

const pointed = value => (value?.startsWith('addr ') ? value.slice(5) : null);

// The cells that the evaluation of a list reads, in order.
function readsOf(state, thread, locks) {
  const cells = [], { registers } = state.threads[thread];
  const valueAt = place => { const [o, f] = place.split('.').map(Number); return state.objects[o]?.[f]; };
  for (const { kind, base, path } of locks) {
    if (kind !== 'expr') continue;
    let at = base.kind === 'g' ? base.number + '.0' : pointed(registers[base.number]);
    for (const step of path) {
      if (at === null) break;
      if (step === '*') { cells.push(at); at = pointed(valueAt(at)); continue; }
      const [o, f] = at.split('.').map(Number);
      at = valueAt(`${o}.${f + step}`) === undefined ? null : `${o}.${f + step}`;
    }
  }
  return cells;
}

function found(run, k, { thread, pc, depth }) {
  const [op, a, b] = run.program.code[pc].split(/,? /), at = register => pointed(run.register(k, thread, register.slice(1)));
  if (op === 'load') return { ...NONE, reads: [at(b)] };
  if (op === 'store') return { ...NONE, writes: [at(a)] };
  if (op === 'new') return { ...NONE, made: Number(pointed(run.register(k + 1, thread, a.slice(1))).split('.')[0]) };
  const locks = op === 'acq' && !depth ? run.program.lists[Number(a)] : [];
  return locks.some(({ path }) => path?.includes('*')) ? { ...NONE, reads: readsOf(run.view(k), thread, locks) } : NONE;
}

export function accessOf(run, k) {
  const event = run.events[k];
  if (event.reply !== 'ran' || event.pc < 0) return NONE;
  if (!known.has(event)) known.set(event, found(run, k, event));
  return known.get(event);
}

export const touches = ({ reads, writes, made }) => Boolean(reads.length || writes.length || made >= 0);
const isWritten = ({ writes, made }, cell) => writes.includes(cell) || made === Number(cell.split('.')[0]);
// A cell that both touch and one of them writes, the second after the first; null where there is none.
export const conflict = (first, second) => second.reads.find(cell => isWritten(first, cell))
  ?? second.writes.find(cell => isWritten(first, cell) || first.reads.includes(cell)) ?? null;

const opOf = (run, { pc }) => (pc < 0 ? '' : run.program.code[pc].split(' ')[0]);
// A thread gives back all that it holds, or is granted its list.
export const isRelease = (run, event) => (event.reply === 'fault' && event.depth > 0)
  || (event.reply === 'ran' && event.depth === 1 && opOf(run, event) === 'rel');
export const isGrant = (run, event) => event.reply === 'ran' && event.depth === 0 && opOf(run, event) === 'acq';
