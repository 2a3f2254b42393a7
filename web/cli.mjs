#!/usr/bin/env -S node --experimental-wasm-memory64
// The program `asl` where no kit is: node --experimental-wasm-memory64 web/cli.mjs compile --text < examples/counter.asl
// `run` is not here, since it starts threads. Which module it takes, module.mjs says.
import { readSync, writeSync } from 'node:fs';
import { openAsl } from './module.mjs';

const MOST_INPUT = 268435456;
const HELP = ['--help', '-h', '--version', '-V'];

function writeAll(stream, bytes) {
  for (let at = 0; at < bytes.length;) at += writeSync(stream, bytes, at);
}

// Says how it ends; a standard error that fails changes no status.
function end(status, errors) {
  process.exitCode = status;
  try {
    writeAll(2, Buffer.from(errors));
  } catch { /* the status says it */ }
}

// Standard input to its end, or what refuses it.
function input() {
  const parts = [];
  for (let length = 0; length <= MOST_INPUT;) {
    const part = Buffer.allocUnsafe(1 << 20), got = readSync(0, part, 0, part.length, null);
    if (!got) return { bytes: Buffer.concat(parts, length) };
    parts.push(part.subarray(0, got));
    length += got;
  }
  return { refusal: 'TooLong' };
}

function given() {
  try {
    return input();
  } catch {
    return { refusal: 'Read' };
  }
}

// The words are judged before the input is read, and help reads none.
function answer(asl, words) {
  const judged = asl(words, new Uint8Array(0));
  if (judged.status >= 2 || words.some(word => HELP.includes(word))) return judged;
  const { bytes, refusal } = given();
  return refusal ? { status: 1, output: [], errors: `asl: ${refusal}\n` } : asl(words, bytes);
}

function run(asl, words) {
  const { status, output, errors } = answer(asl, words);
  if (status === 255) return end(2, 'asl: run starts threads, which the module cannot\n');
  try {
    writeAll(1, output);
  } catch {
    return end(1, 'asl: Write\n');
  }
  return end(status, errors);
}

// Node before 24 takes a 64-bit memory only where it is asked to.
async function loaded() {
  try {
    return await openAsl();
  } catch (error) {
    if (/memory64/.test(error.message)) return end(2, 'asl: Node before 24 needs the option --experimental-wasm-memory64\n');
    throw error;
  }
}

const asl = await loaded();
if (asl) run(asl, process.argv.slice(2));
