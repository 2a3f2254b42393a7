// Files in and out: what a file is, told by its bytes; and what becomes of images and run files.
// Tried by web/test/shares.mjs and web/test/opening.mjs.

import { compile, disassemble, trace } from './toolchain.js';
import { readTrace } from './trace.js';
import { partsOf } from './runfile.js';
import { isWorkFile, readWorkFile } from './workfile.js';
import { meaningOf } from './refusals.js';
import { ownListsOf } from './own.js';

const MOST_BYTES = 2 ** 28; // as the toolchain takes
const decoder = new TextDecoder(), strict = new TextDecoder('utf-8', { fatal: true });
const letters = (bytes, at) => String.fromCharCode(...bytes.slice(at, at + 4));
const same = (a, b) => a.length === b.length && a.every((byte, i) => byte === b[i]);
const refusedBy = refusal => new Error(meaningOf(refusal).words);

// The text of a file. Other letters than those of UTF-8 would be other words, which nobody wrote.
export function textOf(bytes) {
  try { return strict.decode(bytes); } catch {
    const line = decoder.decode(bytes).split('\uFFFD')[0].split('\n').length;
    throw new Error(`its text is not in UTF-8, from line ${line} on. Save it in UTF-8, and open it again.`);
  }
}

// What a file is: an image or a run file, which want a source; or a whole that can be loaded. It throws in plain words.
export async function readFile(name, bytes) {
  if (bytes.length > MOST_BYTES) throw new Error(`it has more than ${MOST_BYTES} bytes`);
  if (!bytes.length) throw new Error('it is empty, so nothing was opened.');
  if (letters(bytes, 0) === 'ASLM') return { name, image: bytes };
  if (letters(bytes, 4) === 'ASLM') return ofRun(name, bytes);
  const text = textOf(bytes).replace(/\r\n?/g, '\n');
  if (isWorkFile(text)) return { name, whole: readWorkFile(text) };
  const kind = /\.asm$/.test(name) || /^\s*version\s+\d/.test(text) ? 'asm' : 'asl';
  return { name, whole: { text, kind, title: name } };
}

async function ofRun(name, bytes) {
  const told = await trace(bytes);
  if (told.refusal) throw refusedBy(told.refusal);
  const { image, threads } = partsOf(bytes), schedule = readTrace(told.text).map(event => event.thread);
  return { name, image, run: { threads, schedule, position: schedule.length } };
}

// The source whose code an image has, with the lists of the image as lists of one's own.
async function sourceUnder(image, sources) {
  const { text: assembly } = await disassemble(image);
  for (const source of assembly ? sources : []) {
    const own = await ownListsOf(source.text, assembly);
    if (own) return { text: source.text, kind: 'asl', title: source.title, ...own };
  }
  return null;
}

// The source that makes an image, with the k; null where none of them does.
export async function sourceOf(image, sources) {
  for (const { text, title } of sources) for (const k of [3, 0, 1, 2, 4, 5, 6, 7, 8]) {
    const answer = await compile(text, k);
    if (answer.refusal && !/^TooMany/.test(answer.refusal)) break; // it is so at each k
    if (answer.output && same(answer.output, image)) return { text, kind: 'asl', title, k };
  }
  return sourceUnder(image, sources);
}

// An image without a source, as the assembly text of its program.
export async function assemblyOf(name, image) {
  const told = await disassemble(image);
  if (told.refusal) throw refusedBy(told.refusal);
  return { text: told.text, kind: 'asm', title: name.replace(/\.\w+$/, '') + '.asm' };
}

export function download(name, bytes) {
  const address = URL.createObjectURL(new Blob([bytes], { type: 'application/octet-stream' }));
  const link = Object.assign(document.createElement('a'), { href: address, download: name });
  link.click();
  setTimeout(() => URL.revokeObjectURL(address), 1000);
}

export async function copyText(text) {
  try { await navigator.clipboard.writeText(text); return true; } catch { /* an older way */ }
  const area = Object.assign(document.createElement('textarea'), { value: text });
  document.body.append(area);
  area.select();
  const done = document.execCommand('copy');
  area.remove();
  return done;
}
