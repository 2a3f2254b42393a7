// What `check` says of lists, asked once for each source, program and k, and told again where it is wanted.
// Tried by web/test/own.mjs.

import { unlessDropped } from './aside.js';
import { compileText } from './toolchain.js';
import { judgeLists } from './own.js';

const MOST = 8;
const known = new Map();

async function asked(source, program, k) {
  const told = await judgeLists(source, program, k);
  return { ...told, inferred: (await compileText(source, k)).text || '' };
}

// The verdict, or null until it is there, which `told` hears.
export function verdictOf(source, program, k, told) {
  const key = [k, source, program].join('\0');
  if (!known.has(key)) {
    if (known.size >= MOST) known.delete(known.keys().next().value);
    known.set(key, null);
    unlessDropped(asked(source, program, k).then(answer => { known.set(key, answer); told(); }))
      .finally(() => { if (!known.get(key)) known.delete(key); });
  }
  return known.get(key) || null;
}
