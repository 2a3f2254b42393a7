// What a step of a lesson waits for, in a small vocabulary (docs/LESSONS.md). A condition looks at a bench, whose events and states are
// the toolchain's, and at what `check` says of its lists.
// Tried by web/test/lessonfiles.mjs and web/test/lessons.mjs.

import { waitAt } from './stretches.js';
import { functionAt } from './program.js';

const runs = (bench, t) => bench.state.threads[t]?.status === 'runs';
const isAt = (bench, t, name) => !name || bench.names.function(functionAt(bench.program, bench.state.threads[t].pc)) === name;
const eventsOf = (bench, t) => bench.run.events.slice(0, bench.position).filter(event => event.thread === t);
const plain = value => value.replace(/^int /, '');

function faultsAt(bench, fault, cell) {
  const [, place] = /^Unprotected (\S+) /.exec(fault) || [];
  return !cell || Boolean(place) && (cell === place || cell === bench.names.cell(place));
}
const hasFresh = bench => bench.state.threads.some(thread => thread.fresh.length);

// Of a thread: what is said of it, and what that asks.
const OF_A_THREAD = [
  [/^(?:is|are) blocked(?: in (\w+))?$/, (bench, t, name) =>
    runs(bench, t) && Boolean(waitAt(bench.stretches, t, bench.position)) && isAt(bench, t, name)],
  [/^(?:is|are) inside(?: (\w+))?$/, (bench, t, name) => runs(bench, t) && bench.state.threads[t].depth > 0 && isAt(bench, t, name)],
  [/^(?:has|have) left (?:its section|their sections)$/, (bench, t) => eventsOf(bench, t).some(e => e.depth > 0 && e.after === 0)],
  [/^(?:has|have) printed (-?\d+|null)$/, (bench, t, value) =>
    eventsOf(bench, t).some(e => e.reply === 'out' && plain(e.value) === value)],
  [/^(?:has|have) met a fault(?: at (\S+))?$/, (bench, t, cell) =>
    eventsOf(bench, t).some(e => e.reply === 'fault' && faultsAt(bench, e.fault, cell))],
  [/^(?:has|have) ended$/, (bench, t) => bench.state.threads[t]?.status === 'done'],
];
const FORMS = 'it may be "is blocked", "is blocked in F", "is inside", "is inside F", "has left its section", "has printed 1", '
  + '"has met a fault", "has met a fault at G" or "has ended"';
const FUNCTION = /^(?:is|are) (?:blocked in|inside) (\w+)$/;

// Who was in the way of the blocked step before the last one, and stepped.
function freed({ run, position, last }) {
  const before = position > 1 && run.events[position - 2];
  return Boolean(before) && before.reply === 'blocked' && last.reply !== 'blocked'
    && run.request(position - 2, before.thread).clashes.some(clash => clash.thread === last.thread);
}

// Of all the rest: what it asks of a bench, and of what `check` says.
const OTHERS = [
  [/^k is ([0-8])$/, ({ bench }, k) => bench.builtK === Number(k)],
  [/^lists are enough$/, ({ enough }) => enough === true, { judges: true }],
  [/^lists are the inferred ones$/, ({ bench, inferred }) => sameLists(bench.asm, inferred), { judges: true }],
  [/^the run has at most (\d+) steps?$/, ({ bench }, n) => bench.position <= n],
  [/^the run has at least (\d+) steps?$/, ({ bench }, n) => bench.position >= n],
  [/^who is in the way has stepped$/, ({ bench }) => freed(bench)],
  [/^some object is fresh$/, ({ bench }) => hasFresh(bench)],
  [/^no object is fresh$/, ({ bench }) => !hasFresh(bench)],
];

const locksOf = text => text.slice(text.search(/^list$/m)).split(/^list\n/m).map(list => list.split('\n').sort().join('\n')).join('list\n');
const sameLists = (text, inferred) => Boolean(inferred) && locksOf(text) === locksOf(inferred);

const SUBJECT = /^(?:thread (\d+)|(some|no) thread|(all) threads) (.*)$/;
const HOLDS = {
  some: (bench, is) => threadsOf(bench).some(is), no: (bench, is) => !threadsOf(bench).some(is),
  all: (bench, is) => threadsOf(bench).every(is),
};
const threadsOf = bench => Array.from({ length: bench.run.threads }, (_, t) => t);

// A condition of a line: what it asks, and what it names; or why it is none.
export function readCondition(words) {
  const [, number, some, all, said] = SUBJECT.exec(words) || [];
  if (!said) return readOther(words);
  for (const [pattern, asks] of OF_A_THREAD) {
    const found = pattern.exec(said);
    if (!found) continue;
    const is = bench => t => asks(bench, t, found[1]), thread = number === undefined ? -1 : Number(number);
    const fits = ({ bench }) => (thread < 0 ? HOLDS[some || all](bench, is(bench)) : is(bench)(thread));
    return { words, fits, thread, function: FUNCTION.exec(said)?.[1] };
  }
  return { refusal: `"${said}" is not what a lesson can ask of a thread: ${FORMS}` };
}

function readOther(words) {
  for (const [pattern, asks, more] of OTHERS) {
    const found = pattern.exec(words);
    if (found) return { words, fits: context => asks(context, found[1]), thread: -1, ...more };
  }
  if (/^(\w+ )?threads?( |$)/.test(words)) return {
    refusal: 'a condition of threads begins with "thread 0", "some thread", "all threads" or "no thread"' };
  return { refusal: `"${words}" is not a condition: it is of threads, as "thread 0 ..", or "k is 1", "lists are enough", `
    + '"lists are the inferred ones", "the run has at most 20 steps", "the run has at least 20 steps", '
    + '"who is in the way has stepped", "some object is fresh" or "no object is fresh"' };
}
