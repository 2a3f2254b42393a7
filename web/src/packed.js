// What the page carries packed, each in an element of its own: gzip in letters.
// Tried by web/test/starting.mjs.

import { fromLetters } from './letters.js';

const packed = id => new Response(fromLetters(document.getElementById(id).textContent)).body;
const unpacked = (id, type) => new Response(packed(id).pipeThrough(new DecompressionStream('gzip')), { headers: { 'Content-Type': type } });

// Begins to unpack all: promises of the script of the page, of its examples, lessons and the worker's text, and of the compiled module.
export function unpackAll() {
  const carried = { program: unpacked('program', 'text/javascript').text(), data: unpacked('data', 'application/json').json(),
    module: WebAssembly.compileStreaming(unpacked('wasm', 'application/wasm')) };
  for (const part of Object.values(carried)) part.catch(() => {}); // who waits for it hears of it
  return carried;
}

export function cannotStart(error) {
  const told = ['The workbench cannot start here: ' + error.message,
    'It needs a browser with 64-bit WebAssembly memory: Chrome or Edge from 133, Firefox from 134.'];
  document.getElementById('say').replaceChildren(...told.map(textContent => Object.assign(document.createElement('p'), { textContent })));
  document.querySelector('#say p').className = 'is-fault';
}
