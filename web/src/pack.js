// Texts and schedules as letters of an address: deflated, in base 64 without signs that an address gives a meaning.
// Tried by web/test/shares.mjs and web/test/keeping.mjs.

const encoder = new TextEncoder(), decoder = new TextDecoder();
export const MOST_TEXT = 2 ** 24; // a short link can stand for gigabytes
export const MOST_STEPS = 1e6;
const PLAIN = 64; // so many steps are written plainly, a digit a step

// What comes out of a stream, of which more than so many bytes are an error, or are left out.
async function through(bytes, stream, most = Infinity, rest = 'refused') {
  const reader = new Blob([bytes]).stream().pipeThrough(stream).getReader(), parts = [];
  for (let length = 0; length <= most;) {
    const { done, value } = await reader.read();
    if (done) return new Uint8Array(await new Blob(parts).arrayBuffer());
    parts.push(value);
    length += value.length;
  }
  await reader.cancel();
  if (rest === 'refused') throw new RangeError(`more than ${most} bytes`);
  return new Uint8Array(await new Blob(parts).arrayBuffer()).slice(0, most);
}

const PART = 8192; // letters that are made at once
function toLetters(bytes) {
  const parts = [];
  for (let i = 0; i < bytes.length; i += PART) parts.push(String.fromCharCode(...bytes.subarray(i, i + PART)));
  return btoa(parts.join('')).replace(/\+/g, '-').replace(/\//g, '_').replace(/=+$/, '');
}
const toBytes = letters => Uint8Array.from(atob(letters.replace(/-/g, '+').replace(/_/g, '/')), c => c.charCodeAt(0));
const deflated = async bytes => toLetters(await through(bytes, new CompressionStream('deflate-raw')));
const inflated = (letters, most, rest) => through(toBytes(letters), new DecompressionStream('deflate-raw'), most, rest);

const last = { text: null, letters: '' }; // an address is written after each step, mostly of the same text
export async function packText(text) {
  if (last.text !== text) Object.assign(last, { letters: await deflated(encoder.encode(text)), text });
  return last.letters;
}
export const unpackText = async letters => decoder.decode(await inflated(letters, MOST_TEXT));

// A few steps of at most ten threads are digits; others are bytes, deflated, behind a \x60~\x60. No more than the first million.
export async function packSteps(schedule, threads) {
  if (threads <= 10 && schedule.length <= PLAIN) return schedule.join('');
  return '~' + await deflated(Uint8Array.from(schedule.slice(0, MOST_STEPS)));
}
// What is no step is left out. Links of before have each step of more than ten threads as a number, and 5*3 for 5.5.5.
export async function unpackSteps(words, threads) {
  if (words[0] === '~') return [...await inflated(words.slice(1), MOST_STEPS, 'left out')].filter(t => t < threads);
  if (threads <= 10) return Array.from(words.slice(0, MOST_STEPS), Number).filter(t => t < threads);
  const steps = [];
  for (const word of words.split('.')) {
    const [, t, n = 1] = /^(\d+)(?:\*(\d+))?$/.exec(word) || [null, threads];
    for (let left = Math.min(n, MOST_STEPS - steps.length); t < threads && left > 0; left--) steps.push(Number(t));
  }
  return steps;
}
