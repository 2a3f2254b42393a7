// The toolchain in Node, with the module that is there: asl.wasm beside this file, or in the folder out/ there; where there is none, the one
// that docs/workbench.html carries. The variable ASL_WASM names another one.
//   const asl = await openAsl();                            as loadAsl of asl.mjs
import { existsSync, readFileSync } from 'node:fs';
import { gunzipSync } from 'node:zlib';
import { loadAsl } from './asl.mjs';

const near = name => new URL(name, import.meta.url);

// (src/ has modules of the page, which Node takes for such only by their text)
async function moduleOfPage() {
  const script = encodeURIComponent(readFileSync(near('src/letters.js'), 'utf8'));
  const { fromLetters } = await import('data:text/javascript,' + script);
  const [, letters] = /id="wasm">([^<]*)</.exec(readFileSync(near('../docs/workbench.html'), 'utf8'));
  return gunzipSync(fromLetters(letters));
}

export async function openAsl() {
  const module = process.env.ASL_WASM || ['asl.wasm', 'out/asl.wasm'].map(near).find(path => existsSync(path));
  return loadAsl(module ? readFileSync(module) : await moduleOfPage());
}
