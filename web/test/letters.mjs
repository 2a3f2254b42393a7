// Tries the letters of the page: what web/letters.py writes is read by src/letters.js and by itself, for bytes of each length, and has
// no letter that HTML forbids in a script.
// usage: node web/test/letters.mjs
import assert from 'node:assert';
import { execFileSync } from 'node:child_process';
import { readFileSync } from 'node:fs';

const near = name => new URL(name, import.meta.url);
const { fromLetters } = await import('data:text/javascript,' + encodeURIComponent(readFileSync(near('../src/letters.js'), 'utf8')));

// zeros, ones, then bytes by chance from a seed
let state = 7;
const next = () => { state ^= state << 13; state ^= state >>> 17; state ^= state << 5; return state & 255; };
const given = [];
for (let length = 0; length < 120; length++)
  for (const byte of [() => 0, () => 255, next, next, next]) given.push(Uint8Array.from({ length }, byte));
given.push(Uint8Array.from({ length: 30000 }, next));

const hex = bytes => Buffer.from(bytes).toString('hex');
const PYTHON = `
import sys
sys.dont_write_bytecode = True
sys.path.insert(0, sys.argv[1])
import letters
for line in sys.stdin.read().split("\\n"):
    data = bytes.fromhex(line)
    text = letters.to_letters(data)
    assert letters.from_letters(text) == data, line
    sys.stdout.buffer.write((text + "\\n").encode())
`;
const written = execFileSync('python3', ['-c', PYTHON, near('..').pathname], { input: given.map(hex).join('\n'), maxBuffer: 1 << 26 })
  .toString().split('\n').slice(0, -1);

assert.equal(written.length, given.length);
given.forEach((bytes, i) => assert.equal(hex(fromLetters(written[i])), hex(bytes), 'bytes ' + hex(bytes)));
// no blank, no control, no <>&
assert.match(written.join(''), /^[!-%'-;=?-~\u00c0-\u07ff]*$/);
const long = written.at(-1);
assert.ok(Buffer.byteLength(long) <= Math.ceil(30000 * 8 / 6.75) + 1, 'bytes of the page: ' + Buffer.byteLength(long));
assert.equal(new TextDecoder('utf-8', { fatal: true }).decode(Buffer.from(long)), long);
console.log(`web/test/letters: ${given.length} texts`);
