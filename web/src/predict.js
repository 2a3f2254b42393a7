// Before a step the page asks what it will do: run, print, be blocked, by whom and at which node, or meet a fault. The step is made when
// that is answered, and hits are counted. What is asked for and what came of it is the toolchain's.
// Tried by web/test/go.mjs.

const NONE = { on: false, all: true, hits: 0, asked: 0, thread: -1, guess: null, told: '' };
export const predict = { ...NONE };

export const REPLIES = [['ran', 'it runs', 'r'], ['blocked', 'it is blocked', 'b'], ['out', 'it prints', 'p'],
  ['fault', 'it meets a fault', 'f']];

export function setPredict(bench, on, all = predict.all) {
  Object.assign(predict, NONE, { on, all });
  bench.asks = on ? thread => begin(bench, thread) : null;
  bench.changed('predict');
}

const standsAtAcquire = (bench, t) => bench.program.code[bench.state.threads[t].pc].startsWith('acq ') && !bench.state.threads[t].depth;
// Says whether the step waits for an answer.
function begin(bench, thread) {
  const place = bench.state.threads[thread];
  if (!place || place.status !== 'runs' || bench.refusal) return false;
  if (!predict.all && !standsAtAcquire(bench, thread)) return false;
  Object.assign(predict, { thread, guess: {}, told: '' });
  bench.changed('predict');
  return true;
}
export function drop(bench) {
  Object.assign(predict, { thread: -1, guess: null });
  bench.changed('predict');
}

// What is asked next: [what, its choices]; nothing where all is answered.
export function question(bench) {
  const { thread, guess } = predict;
  if (!bench.run || thread < 0 || bench.state.threads[thread]?.status !== 'runs') return null; // (it may be another state now)
  if (!guess.reply) return ['reply', REPLIES.map(([value, words, key]) => ({ value, words, key }))];
  if (guess.reply !== 'blocked' || !standsAtAcquire(bench, thread)) return null;
  const choice = (value, i) => ({ value, words: value, key: i < 9 ? String(i + 1) : '' });
  if (guess.by === undefined) return ['by', others(bench, thread).map(t => ({ value: t, words: 'T' + t, key: t < 10 ? String(t) : '' }))];
  if (guess.node === undefined) return ['node', nodesOf(bench, thread).map(choice)];
  return null;
}
const others = (bench, thread) => bench.state.threads.flatMap((other, t) => (t !== thread && other.status === 'runs' ? [t] : []));
const RANK = ['root', 'class', 'leaf'];
const rank = node => RANK.indexOf(node.split(' ')[0]);
// The nodes at which it asks for something.
const nodesOf = (bench, thread) => [...bench.run.request(bench.position, thread).nodes.keys()].sort((a, b) => rank(a) - rank(b));

// Takes an answer; with the last one the step is made and judged.
export async function answer(bench, what, value) {
  const asked = question(bench), { thread } = predict;
  if (!asked || asked[0] !== what) return;
  predict.guess[what] = value;
  const next = question(bench);
  if (next && next[1].length) return bench.changed('predict');
  const { guess } = predict;
  Object.assign(predict, { thread: -1, guess: null });
  await bench.stepNow(thread);
  judge(bench, thread, guess);
}

function judge(bench, thread, { reply, by, node }) {
  const { last, position } = bench;
  if (!last || last.thread !== thread) return bench.changed('predict');
  const { clashes } = last.reply === 'blocked' ? bench.run.request(position - 1, thread) : { clashes: [] };
  const right = last.reply === reply
    && (by === undefined || clashes.some(clash => clash.thread === by && (node === undefined || clash.node === node)));
  predict.asked++;
  if (right) predict.hits++;
  predict.told = (right ? '✓ A hit: ' : '✕ A miss: ') + happened(bench, last, clashes[0]);
  bench.changed('predict');
}
function happened(bench, { thread, reply }, clash) {
  if (reply === 'blocked')
    return `thread ${thread} is blocked` + (clash ? ` by T${clash.thread} at ${bench.names.node(clash.node)}.` : '.');
  return `thread ${thread} ${{ ran: 'ran', out: 'printed', fault: 'met a fault', ended: 'had ended' }[reply]}.`;
}
