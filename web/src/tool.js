// The toolchain that the page carries. And a worker that has the same, made of the text that the page carries for it.
// Tried by web/test/starting.mjs and web/test/waiting.mjs.

import { loadAsl } from '../asl.mjs';

export async function loadTool(compiled) {
  const module = await compiled;
  return { module, call: await loadAsl(module) };
}

export function workerOf(text, module) {
  const address = URL.createObjectURL(new Blob([text], { type: 'text/javascript' }));
  try {
    const worker = new Worker(address);
    worker.postMessage({ module });
    return worker;
  } finally { setTimeout(() => URL.revokeObjectURL(address), 10000); }
}
