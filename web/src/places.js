// Where each instruction stands in its text, and what numbers are called: of a source by the toolchain's `map`, of an assembly text
// line by line.
// Tried by web/test/go.mjs and web/test/panels.mjs.

import { mapText } from './toolchain.js';

const READ = {
  function: (map, [f, name]) => { map.functions[f] = name; map.registers[f] = []; },
  register: (map, [f, r, name]) => { map.registers[f][r] = name; },
  global: (map, [g, name]) => { map.globals[g] = name; },
  place: (map, [pc, from, to, kind]) => { map.spans[pc] = { from: Number(from), to: Number(to), kind }; },
  unreached: () => {}, class: () => {}, section: () => {}, site: () => {},
};

// Of a source that the toolchain has accepted.
export async function mapSource(text) {
  const answer = await mapText(text);
  if (answer.refusal) throw new Error('map: ' + answer.refusal);
  const map = { spans: [], functions: [], registers: [], globals: [] };
  for (const line of answer.text.trimEnd().split('\n')) {
    const [word, ...rest] = line.split(' ');
    if (!READ[word]) throw new Error('map: ' + line);
    READ[word](map, rest);
  }
  return map;
}

// Each instruction is its own line, and names are numbers.
export function mapAssembly(text) {
  const map = { spans: [], functions: null, registers: null, globals: null };
  const other = /^(version|classes|global|entry|fn|list|expr|class|root)\b/;
  let from = 0;
  for (const line of text.split('\n')) {
    const words = line.trim();
    if (words && !other.test(words)) map.spans.push({ from, to: from + line.length });
    from += line.length + 1;
  }
  return map;
}
