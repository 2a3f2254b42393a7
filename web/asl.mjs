// The proved toolchain as a WebAssembly module, for the browser and for Node (from 24, or with --experimental-wasm-memory64).
//   const asl = await loadAsl(bytes);                       the bytes of asl.wasm, or a module that was compiled of them
//   asl(['compile', '--text'], source)                      { status, output: Uint8Array, errors: string }
//   asl.lists(source, { k: 'auto', entries: ['put'] })      the document of `asl lists`, as an object
//   const session = asl.session(program, threads);          an image or assembly text; a run that is stepped, gone through, and cut
// The words and the status are those of the program `asl`; `run`, which needs threads, has status 255.

const encoder = new TextEncoder();
const decoder = new TextDecoder();
const ERRORS = 4096;
const ANSWER = 24; // status in 4 bytes, 4 unused, the length of the output and of the errors in 8 each
const HANDLE = 16; // whether it is live in 1 byte, 7 unused, where it stands in 8
const TOLD = 8;    // a length in 8 bytes; or the position and the number of events in 4 each
const ROOM = 1 << 16; // bytes that a text of a session is given at first
const OUTPUT = (1 << 22) - 16; // bytes for the output of a command: a block of the heap with its header, so that few outputs are made twice

// The statuses of sessions (include/asl.h) by the names that the program has for them, where it has one.
const STATUSES = { 2: 'OutOfMemory', 3: 'BadHandle', 4: 'BadThread', 11: 'BadCount', 12: 'NoProgram', 13: 'NoSuchStep', 14: 'NotAtEnd',
  15: 'JournalFull', 16: 'NullPointer' };

export async function loadAsl(bytes) {
  const made = await WebAssembly.instantiate(bytes, {});
  const wasm = (made.instance || made).exports, memory = memoryOf(wasm);
  const asl = callerOf(wasm, memory);
  return Object.assign(asl, { lists: listsBy(asl), session: (program, threads) => sessionOf(wasm, memory, program, threads),
    memory: () => wasm.memory.buffer.byteLength });
}

// All that is told of the lists of a source (docs/CLI.md, "Lists"; docs/lists.schema.json). `k` is 0 to 8, or 'auto'; `entries` are the
// functions that are called of a source without `main`. A refusal throws an error whose name is that of the refusal, and whose message is
// the whole of it; words that are no k and no name throw WrongUsage.
const listsBy = asl => (source, { k = 3, entries = [] } = {}) => {
  const { status, output, errors } = asl(['lists', '--k', k, ...entries.flatMap(name => ['--entry', name])], source);
  if (status === 0) return JSON.parse(decoder.decode(output));
  const message = errors.trim().replace(/^asl: /, '');
  throw Object.assign(new Error(message), { name: status === 1 ? message.replace(/\(.*/s, '') : 'WrongUsage', status });
};

function memoryOf(wasm) {
  const at = (pointer, length) => new Uint8Array(wasm.memory.buffer, Number(pointer), length);
  const take = length => {
    const pointer = wasm.asl_take(BigInt(Math.max(length, 1)));
    if (!pointer) accept(2);
    return pointer;
  };
  const look = (pointer, length) => new DataView(wasm.memory.buffer, Number(pointer), length);
  return { at, take, give: pointer => wasm.asl_give(pointer), look };
}

const bytesOf = input => (typeof input === 'string' ? encoder.encode(input) : input);
// What is no number of 32 bits is given as the greatest one, which no thread, position or count is, so that it is refused as they are.
const numberOf = n => (Number.isInteger(n) && n >= 0 && n < 2 ** 32 ? n : 2 ** 32 - 1);

// The words with a line feed between two. One inside a word would part it: a space, which no word of the program has either, stands for it.
const listOf = words => words.map(word => String(word).replaceAll('\n', ' ')).join('\n');

function callerOf(wasm, { at, take, give, look }) {
  const once = (words, input, room, errorRoom) => {
    const taken = [words.length, input.length, room, errorRoom, ANSWER].map(take), [w, i, out, err, answer] = taken;
    at(w, words.length).set(words);
    at(i, input.length).set(input);
    wasm.asl_call(w, BigInt(words.length), i, BigInt(input.length), out, BigInt(room), err, BigInt(errorRoom), answer);
    const told = look(answer, ANSWER);
    const length = Number(told.getBigUint64(8, true)), said = Number(told.getBigUint64(16, true));
    const result = { status: told.getUint32(0, true), output: at(out, Math.min(length, room)).slice(),
      errors: decoder.decode(at(err, Math.min(said, errorRoom)).slice()) };
    taken.forEach(give);
    return { length, said, result };
  };
  let room = OUTPUT; // it grows to the largest output that was seen
  return (words, input = '') => {
    const list = encoder.encode(listOf(words)), bytes = bytesOf(input), given = room;
    const { length, said, result } = once(list, bytes, given, ERRORS);
    room = Math.max(room, Math.ceil(length * 1.3));
    return length <= given && said <= ERRORS ? result : once(list, bytes, room, Math.max(said, ERRORS)).result;
  };
}

function accept(status) {
  if (status) throw Object.assign(new Error(STATUSES[status]), { name: STATUSES[status], status });
}

// The handle of a new session, which holds none where the program is refused.
function opened(wasm, { at, take, give }, program, threads) {
  const bytes = bytesOf(program), handle = take(HANDLE), input = take(bytes.length);
  at(handle, HANDLE).fill(0);
  at(input, bytes.length).set(bytes);
  const status = wasm.asl_session_open_nonnull(input, BigInt(bytes.length), numberOf(threads), handle);
  give(input);
  if (status) give(handle);
  accept(status);
  return handle;
}

// A session. What is refused throws an error that is named as the status. `close` gives back all that it has; afterwards each of its
// functions throws BadHandle.
function sessionOf(wasm, memory, program, threads) {
  const { at, take, give, look } = memory;
  let handle = opened(wasm, memory, program, threads), room = ROOM, told = take(TOLD), text = take(room);
  const call = (name, ...words) => accept(handle ? wasm[`asl_session_${name}_nonnull`](handle, ...words) : 3);
  const toldBytes = (name, ...words) => { // they stand there until the next call
    call(name, ...words, text, BigInt(room), told);
    const length = Number(look(told, TOLD).getBigUint64(0, true));
    if (length <= room) return at(text, length);
    give(text);
    text = take(room = Math.ceil(length * 1.3));
    return toldBytes(name, ...words);
  };
  const tell = (name, ...words) => decoder.decode(toldBytes(name, ...words));
  const telling = Object.fromEntries(['view', 'asks', 'stack', 'objects'].map(name => [name, () => tell(name)]));
  return { ...telling, step: thread => call('step', numberOf(thread)), go: k => call('go', numberOf(k)),
    cut: k => call('cut', numberOf(k)), log: (first = 0) => tell('log', numberOf(first)), runFile: () => toldBytes('run_file').slice(),
    place: () => {
      call('place', told);
      const view = look(told, TOLD);
      return { position: view.getUint32(0, true), events: view.getUint32(4, true) };
    },
    close: () => {
      call('close');
      [handle, told, text].forEach(give);
      handle = 0n;
    } };
}
