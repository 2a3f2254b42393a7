// Sessions of asl.mjs against the commands of the same module, at each position; what is refused; and memory, which is given back. Of its
// commands: words and errors that are long or odd.
//   node --experimental-wasm-memory64 web/test/sessions.mjs [MODULE]      web/out/asl.wasm, if none is named
import { readFileSync } from 'node:fs';
import { loadAsl } from '../asl.mjs';
import { EXAMPLES, ROOT } from './paths.mjs';

const asl = await loadAsl(readFileSync(process.argv[2] || ROOT + 'web/out/asl.wasm'));
const decoder = new TextDecoder();
let passed = 0, failed = 0;
function check(is, words) { if (is) passed++; else { failed++; console.log('FAILED', words); } }
const same = (one, other) => Buffer.compare(one, other) === 0;
const answer = (words, input) => decoder.decode(asl(words.map(String), input).output);

// Each position against `debug`, the journal against `log`, and the run file against `step --record`, of a schedule whose steps go by a multiplier.
function follow(program, threads, steps, name) {
  const schedule = Array.from({ length: steps }, (_, i) => ((i * 7919) >> 3) % threads);
  const recorded = count => asl(['step', '--threads', threads, '--record', ...schedule.slice(0, count)].map(String), program).output;
  const file = recorded(steps);
  const session = asl.session(program, threads);
  for (const thread of schedule) session.step(thread);
  check(session.log(0) === answer(['log'], file), name + ': log');
  check(same(session.runFile(), file), name + ': run file');
  for (let k = steps; k >= 0; k -= 7) {
    session.go(k);
    for (const word of ['view', 'asks', 'stack', 'objects'])
      check(`at ${k}\n${session[word]()}` === answer(['debug', 'goto', k, word], file), `${name}: ${word} at ${k}`);
  }
  check(session.place().position < 7 && same(session.runFile(), file), name + ': run file from the front');
  session.cut(3);
  check(same(session.runFile(), recorded(3)), name + ': run file behind a cut');
  check(JSON.stringify(session.place()) === '{"position":3,"events":3}', name + ': place');
  session.close();
}

function refused(work, name) {
  try { work(); check(false, name + ' is not refused'); } catch (error) { check(error.name === name && error.message === name, `${name}: ${error}`); }
}

const image = name => asl(['compile'], readFileSync(EXAMPLES + name)).output;
const walk = image('walk.asl'), assembly = readFileSync(EXAMPLES + 'sum.asm');
follow(walk, 3, 300, 'walk.asl');
follow(image('tree.asl'), 128, 400, 'tree.asl');
const file = asl(['asm'], assembly).output;
follow(file, 2, 60, 'sum.asm');

refused(() => asl.session('nonsense', 2), 'NoProgram');
for (const threads of [0, 1.5, 2 ** 32 + 1]) refused(() => asl.session(walk, threads), 'BadCount');
const session = asl.session(assembly, 2);
for (const thread of [0, 1, 0]) session.step(thread);
for (const thread of [2, -1, 2 ** 32, undefined, '0']) refused(() => session.step(thread), 'BadThread');
for (const k of [-1, 0.5, 2 ** 32]) refused(() => session.go(k), 'NoSuchStep');
check(session.log() === session.log(0) && session.log(3) === '' && session.place().events === 3, 'what is refused is no event');
refused(() => session.go(4), 'NoSuchStep');
refused(() => session.cut(4), 'NoSuchStep');
session.go(1);
refused(() => session.step(0), 'NotAtEnd');
session.close();
refused(() => session.view(), 'BadHandle');
refused(() => session.runFile(), 'BadHandle');
refused(() => session.close(), 'BadHandle');

const long = asl(['compile', '--k', 'x'.repeat(10000)]);
check(long.status === 2 && long.errors.length > 10000 && long.errors.trimEnd().endsWith("try '--help'."), 'errors are whole');
check(asl(['compile\n--text'], walk).status === 2 && asl(['--help', 'a\nb']).status === 0, 'a line feed parts no word');

let bytes = 0;
for (let round = 0; round < 60; round++) {
  const one = asl.session(walk, 4);
  for (let i = 0; i < 1000; i++) one.step(i % 4);
  one.go(500);
  one.view();
  one.close();
  if (round === 9) bytes = asl.memory();
}
check(asl.memory() === bytes, `memory grows: ${bytes} bytes, then ${asl.memory()}`);
console.log(`sessions: ${passed} checks passed, ${failed} failed`);
process.exit(failed ? 1 : 0);
