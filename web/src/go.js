// Going further than a step: one thread to its next `atomic`, to the end of its section, to a line, to its next event that is not `ran`;
// all threads to a breakpoint. What is recorded is only gone through, as far as it is the way; then steps are made.
// Tried by web/test/go.mjs.

const MOST = 2000; // steps that are made before it is given up

const isRunning = (bench, t) => bench.state.threads[t]?.status === 'runs';
// The thread that goes: the one that stepped last, else the next, else the first that runs.
export function goer(bench) {
  if (!bench.run) return -1;
  const known = [bench.last?.thread, bench.next?.thread].find(t => t !== undefined && isRunning(bench, t));
  return known ?? bench.state.threads.findIndex(thread => thread.status === 'runs');
}

const placeOf = (bench, t) => bench.state.threads[t];
const lineOf = (bench, pc) => bench.names.line(pc);
// The first instruction of a line; none is -1.
export const firstOf = (bench, line) => bench.program.code.findIndex((_, pc) => lineOf(bench, pc) === line);
const isAtAcquire = (bench, t) => bench.program.code[placeOf(bench, t).pc].startsWith('acq ');

// Steps a thread until `isThere` (of the event that it made) or it cannot go on; says why it stopped.
async function stepUntil(bench, thread, isThere) {
  for (let made = 0; made < MOST; made++) {
    if (bench.next && bench.next.thread === thread) bench.position++;
    else await bench.extend([thread]);
    const { last } = bench;
    if (last.reply === 'blocked') return 'blocked';
    if (!isRunning(bench, thread)) return last.reply === 'fault' ? 'fault' : 'ended';
    if (isThere(last)) return 'there';
  }
  return 'far';
}

const goBy = (bench, name, isThere, more = {}) => bench.alone(() => bench.several(async () => {
  const thread = goer(bench);
  if (!bench.run || bench.refusal) return '';
  if (thread < 0) return 'Nothing to step: all threads have ended.';
  const before = bench.position, why = await stepUntil(bench, thread, event => isThere(bench, thread, event));
  bench.changed('run');
  if (more.quiet?.includes(why)) return '';
  const told = { blocked: `thread ${thread} is blocked`, fault: `thread ${thread} met a fault`, ended: `thread ${thread} has ended`,
    far: `thread ${thread} has not come to ${name}` }[why];
  return told ? `${bench.position - before} ${bench.position - before === 1 ? 'step' : 'steps'} further, ${told}.` : '';
}));

export const toAtomic = bench => goBy(bench, 'an atomic', isAtAcquire);
// The end of the outermost section that it is in, or comes to.
export const toSectionEnd = bench => goBy(bench, 'the end of a section', (_, t, event) => event.depth > 0 && event.after === 0);
export const toEvent = bench => goBy(bench, 'another event', (_, t, event) => event.reply !== 'ran', { quiet: ['blocked', 'fault'] });
export function toLine(bench, line) {
  const pc = bench.run ? firstOf(bench, line) : -1;
  if (pc < 0) return Promise.resolve(`Line ${line + 1} has no instruction.`);
  return goBy(bench, `line ${line + 1}`, (_, t) => placeOf(bench, t).pc === pc);
}

// ---- breakpoints: of the first instruction of a line, as the debugger has them (docs/JOURNAL.md, "Breakpoints")

export const breaks = new Set(); // lines, from 0
export function toggleBreak(bench, line) {
  if (!breaks.delete(line)) {
    if (!bench.program || firstOf(bench, line) < 0) return false;
    breaks.add(line);
  }
  bench.changed('breaks');
  return true;
}
const placesOf = bench => new Set([...breaks].map(line => firstOf(bench, line)).filter(pc => pc >= 0));

// The next stop of the recorded run; behind it the threads step in turn, until the one whose turn it is stands at a breakpoint.
export const toBreak = bench => bench.alone(() => bench.several(async () => {
  if (!bench.run) return '';
  const places = placesOf(bench), { events } = bench.run, began = bench.position;
  if (!places.size) return 'There is no breakpoint: press p, or click a line number.';
  const stop = events.findIndex((event, k) => k > began && places.has(event.pc));
  if (stop > 0) { bench.show(stop); return ''; }
  bench.show(bench.run.length);
  const told = await inTurnTo(bench, places);
  bench.changed('run');
  return told;
}));
async function inTurnTo(bench, places) {
  for (let made = 0, last = bench.last?.thread ?? -1; made < MOST; made++) {
    const running = bench.state.threads.flatMap((thread, t) => (thread.status === 'runs' ? [t] : []));
    if (!running.length) return 'All threads have ended.';
    const thread = running.find(t => t > last) ?? running[0];
    if (made && places.has(placeOf(bench, thread).pc)) return `Thread ${thread} is to step next, at the breakpoint.`;
    await bench.extend([thread]);
    last = thread;
  }
  return `No thread came to a breakpoint in ${MOST} steps.`;
}
// The greatest earlier stop, or the start.
export const backToBreak = bench => bench.alone(() => {
  if (!bench.run) return '';
  const places = placesOf(bench), stop = bench.run.events.slice(0, bench.position).findLastIndex(event => places.has(event.pc));
  if (!places.size) return 'There is no breakpoint: press p, or click a line number.';
  bench.show(Math.max(0, stop));
  return '';
});
