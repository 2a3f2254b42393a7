// What the debugger prints at a position (docs/JOURNAL.md) as a state, and its view back as text. A line that is not known is an
// error: the page shows nothing that it does not understand.
// Tried by web/test/views.mjs.

const NONE = { registers: [], held: new Map(), fresh: [] };

function threadOf(words) {
  const own = { ...NONE, registers: [], held: new Map(), fresh: [], frames: [] };
  if (words[2] === 'pc') return { ...own, status: 'runs', pc: Number(words[3]), depth: Number(words[5]) };
  if (words[2] === 'done') return { ...own, status: 'done', value: words.slice(3).join(' ') };
  return { ...own, status: 'failed', fault: words.slice(3).join(' ') };
}

// A request by thread: what it asks at each node, and who is in the way.
function requestIn(state, thread) {
  if (!state.requests.has(thread)) state.requests.set(thread, { nodes: new Map(), clashes: [] });
  return state.requests.get(thread);
}

const LINES = {
  thread: (state, words) => state.threads.push(threadOf(words)),
  reg: (state, words) => state.threads[words[1]].registers.push(words.slice(3).join(' ')),
  cell: (state, words) => (state.objects[Number(words[1].split('.')[0])] ||= []).push(words.slice(2).join(' ')),
  held: (state, words) => state.threads[words[1]].held.set(words.slice(2, -1).join(' '), words.at(-1)),
  fresh: (state, words) => state.threads[words[1]].fresh.push(Number(words[2])),
  asks: (state, words) => {
    const { nodes } = requestIn(state, Number(words[1]));
    if (words.length > 2) nodes.set(words.slice(2, -1).join(' '), words.at(-1));
  },
  clash: (state, words) => {
    const [holds, holder, asks] = [words.at(-1), Number(words.at(-2)), words.at(-3)];
    requestIn(state, Number(words[1])).clashes.push({ thread: holder, node: words.slice(2, -3).join(' '), asks, holds });
  },
  frame: (state, words) => state.threads[words[1]].frames.push({ function: Number(words[4]), pc: Number(words[6]), registers: [] }),
  local: (state, words) => state.threads[words[1]].frames[words[2]].registers.push(words.slice(4).join(' ')),
  object: (state, words) => state.classes.push(Number(words[2])),
};

// Leaves say most of a clash, the root least.
const RANK = { leaf: 0, class: 1, root: 2 };
const rank = ({ node }) => RANK[node.split(' ')[0]];

export function readInto(state, text) {
  for (const line of text.split('\n')) {
    if (!line) continue;
    const words = line.split(' ');
    if (!Object.hasOwn(LINES, words[0])) throw new Error('the debugger prints a line that is not known: ' + line);
    LINES[words[0]](state, words);
  }
}

export function readView(text) {
  const state = { threads: [], objects: [], classes: [], requests: new Map() };
  readInto(state, text);
  for (const { clashes } of state.requests.values()) clashes.sort((a, b) => rank(a) - rank(b));
  return state;
}

// The state in the view's own lines: what the tests compare.
export function tellView(state) {
  const lines = [];
  state.threads.forEach((thread, t) => {
    if (thread.status === 'runs') lines.push(`thread ${t} pc ${thread.pc} depth ${thread.depth}`);
    else lines.push(`thread ${t} ${thread.status} ${thread.value ?? thread.fault}`);
    thread.registers.forEach((value, r) => lines.push(`reg ${t} ${r} ${value}`));
  });
  state.objects.forEach((cells, o) => cells.forEach((value, f) => lines.push(`cell ${o}.${f} ${value}`)));
  state.threads.forEach((thread, t) => thread.held.forEach((mode, node) => lines.push(`held ${t} ${node} ${mode}`)));
  state.threads.forEach((thread, t) => thread.fresh.forEach(object => lines.push(`fresh ${t} ${object}`)));
  return lines.join('\n') + '\n';
}
