// The toolchain beside the page: it gets the compiled module, then calls, and answers one after the other (aside.js).
// Tried by web/test/waiting.mjs.

import { loadAsl } from '../asl.mjs';

let loading = null;

self.onmessage = async ({ data: { module, number, words, input } }) => {
  if (module) { loading = loadAsl(module); return; }
  try {
    const asl = await loading;
    const answer = asl(words, input);
    self.postMessage({ number, ...answer, bytes: asl.memory() });
  } catch (error) {
    self.postMessage({ number, failed: String(error.message || error) });
  }
};
