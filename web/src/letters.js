// Bytes as letters of a page in UTF-8: web/letters.py writes them, and has the same constants. 27 bits are four digits of base 108, the
// first for the most, and a digit takes one byte of the page: a small one is a letter of ASCII, a greater one is with the digit behind it
// a letter of two bytes. A last group of fewer digits stands for as many whole bytes as its bits have.
// Tried by web/test/letters.mjs.

const ASCII = '!"#$%\'()*+,-./0123456789:;=?@ABCDEFGHIJKLMNOPQRSTUVWXYZ[\\]^_\x60abcdefghijklmnopqrstuvwxyz{|}~'; // no blank, no <>&
const BASE = 108, BITS = 27, SMALL = ASCII.length;
const FIRST = 0xc0; // the first letter of two bytes
const PAIRS = (BASE - SMALL) * BASE; // so many letters stand for two digits; those after them for a last one, with none behind it
const small = new Uint8Array(128);
[...ASCII].forEach((letter, digit) => { small[letter.charCodeAt(0)] = digit; });

function digitsOf(letters) {
  const digits = new Uint8Array(2 * letters.length + 3).fill(BASE - 1); // what a last group lacks are the greatest digits
  let count = 0;
  for (let i = 0; i < letters.length; i++) {
    const code = letters.charCodeAt(i), pair = code - FIRST;
    if (pair < 0) digits[count++] = small[code];
    else if (pair >= PAIRS) digits[count++] = SMALL + pair - PAIRS;
    else {
      digits[count++] = SMALL + Math.floor(pair / BASE);
      digits[count++] = pair % BASE;
    }
  }
  return { digits, count };
}

export function fromLetters(letters) {
  const { digits, count } = digitsOf(letters), bytes = new DataView(new ArrayBuffer(count + 8));
  for (let at = 0, bit = 0; at < count; at += 4, bit += BITS) {
    const number = ((digits[at] * BASE + digits[at + 1]) * BASE + digits[at + 2]) * BASE + digits[at + 3];
    // from its first bit on it reaches into five bytes, of which the group before it may have begun the first
    const place = bit >> 3, behind = 40 - BITS - (bit & 7);
    bytes.setUint8(place, bytes.getUint8(place) | (number >> (32 - behind)));
    bytes.setInt32(place + 1, number << behind);
  }
  return new Uint8Array(bytes.buffer, 0, Math.floor(Math.floor((count * BITS) / 4) / 8));
}
