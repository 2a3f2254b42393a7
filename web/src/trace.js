// The lines of `asl log --trace` (docs/JOURNAL.md) as events: `INDEX THREAD PC DEPTH REPLY`.
// Tried by web/test/moving.mjs.

function replyOf(words) {
  const [reply, ...rest] = words;
  if (reply === 'out') return { reply, value: rest.join(' ') };
  if (reply === 'fault') return { reply, fault: rest.join(' ') };
  if (['ran', 'blocked', 'ended'].includes(reply) && !rest.length) return { reply };
  throw new Error('a reply that is not known: ' + words.join(' '));
}

// The event of a line of `asl log`, `INDEX THREAD REPLY`; the place is where its thread was before it.
export function readEvent(line, place) {
  const [, thread, ...reply] = line.trimEnd().split(' ');
  return { thread: Number(thread), ...place, ...replyOf(reply) };
}

// A thread that had ended has no pc and no depth.
function eventOf(line) {
  const [, thread, pc, depth, ...reply] = line.split(' ');
  return { thread: Number(thread), pc: pc === '-' ? -1 : Number(pc), depth: depth === '-' ? 0 : Number(depth), ...replyOf(reply) };
}

// The events from number `from` on.
export const readTrace = (text, from = 0) => (text ? text.trimEnd().split('\n').slice(from).map(eventOf) : []);
