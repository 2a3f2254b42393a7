// Makes calls through the module: node --experimental-wasm-memory64 web/test/calls.mjs CALLS MODULE
// CALLS is a file of JSON, a list of [words, input in hexadecimal]; what comes out is a list of [status, output, errors].
import { readFileSync } from 'node:fs';
import { loadAsl } from '../asl.mjs';

const [calls, module] = process.argv.slice(2).map(path => readFileSync(path));
const asl = await loadAsl(module);
const answers = JSON.parse(calls).map(([words, input]) => {
  const { status, output, errors } = asl(words, Buffer.from(input, 'hex'));
  return [status, Buffer.from(output).toString('hex'), errors];
});
process.stdout.write(JSON.stringify(answers));
