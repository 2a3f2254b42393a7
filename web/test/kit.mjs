// What the tests of the page share: the browser, the native program, checks that are counted, and how the page is opened.
//   --firefox   tries the page in Firefox; WORDs are of the names of the parts to do
//
// A browser without a window, on a machine whose processors others take, may be given neither a frame nor a timer for seconds. So no test
// waits for a time that is thought to be long enough: what the page is to come to is waited for itself, a minute at most (`until`). And a
// part that fails is tried once more, after all others, in a browser that is begun anew; both outcomes are printed, the second behind
// `again`, and it has failed if it fails again. A fault of the page fails twice. What is looked at by `must` is never forgiven: script
// errors, what is fetched, what a hostile text does.
import { execFileSync } from 'node:child_process';
import { readFileSync } from 'node:fs';
import { loadAsl } from '../asl.mjs';
import { openChromium } from './chromium.mjs';
import { openFirefox } from './firefox.mjs';
import { ASL, PAGE, READY } from './paths.mjs';
import { comes, MINUTE } from './socket.mjs';

const options = process.argv.slice(2).filter(word => word.startsWith('--'));
const only = process.argv.slice(2).filter(word => !word.startsWith('--'));
const began = performance.now();
const all = { passed: 0, failed: 0, errors: [] };
let now = { passed: 0, failed: 0 }; // of the part that is tried
const again = [];

const native = (words, input) => execFileSync(ASL, words.map(String), { input, maxBuffer: 1 << 28, stdio: 'pipe' });
// Where no program is built, ASL may be a module, with --experimental-wasm-memory64; then the page is tried against its own toolchain.
const byModule = call => (words, input) => {
  const { status, output, errors } = call(words.map(String), input);
  if (status) throw Object.assign(new Error(errors), { stderr: errors });
  return Buffer.from(output);
};
export const asl = ASL.endsWith('.wasm') ? byModule(await loadAsl(readFileSync(ASL))) : native;
const openBrowser = options.includes('--firefox') ? openFirefox : openChromium;
export let browser = await openBrowser();
export const run = (...words) => browser.run(...words);
// Until what was asked of the toolchain is answered, and painted. (A window without a screen may be given no frame for a while.)
export const calm = () => run(`(async () => {
  const frame = () => new Promise(done => { requestAnimationFrame(() => setTimeout(done)); setTimeout(done, 5000); });
  do await frame(); while (window.workbench?.isBusy());
  await frame(); })()`);
export async function key(name, shift) { await browser.strike(name, shift); await calm(); }

export function check(is, words) { if (is) now.passed++; else if (++now.failed <= 12) console.log('FAILED', words); }
export function must(is, words) {
  if (is) { all.passed++; return; }
  all.failed++;
  console.log('FAILED', words);
}
// Checks that something comes to be so: an expression of the page, or what a function answers. In a part that has failed already no more
// than two seconds are waited.
export async function until(is, words = is) {
  const patience = now.failed ? 2000 : MINUTE, ask = typeof is === 'string' ? () => run(`Boolean(${is})`) : is;
  let why = '';
  const came = await comes(() => ask().catch(error => { why = String(error); }), patience);
  check(came, came || `not within ${patience} ms: ${typeof words === 'string' ? words : await words()} ${why}`);
  return came;
}

// Other parts begin with a window of this size.
export async function takeRoom() {
  await browser.size(1400, 1000);
  await browser.media(false);
}
async function beginAnew() {
  all.errors.push(...browser.errors);
  await browser.close().catch(error => console.log('       ', String(error)));
  for (let times = 1; ; times++) {
    try {
      browser = await openBrowser();
      return await takeRoom();
    } catch (error) {
      console.log('       ', String(error));
      await browser.close();
      if (times === 3) throw error;
    }
  }
}
async function tried(work, name, word = '') {
  const start = performance.now(), bad = all.failed;
  let lost = false;
  now = { passed: 0, failed: 0 };
  try { await work(); } catch (error) { now.failed++; lost = error.lost; console.log('FAILED', name, error); }
  const ok = !now.failed && all.failed === bad;
  console.log(`${word}${ok ? 'ok    ' : 'BAD   '}`, name, Math.round(performance.now() - start) + ' ms');
  if (lost) await beginAnew(); else if (!ok) await takeRoom().catch(beginAnew);
  return now;
}
function count({ passed, failed }) {
  all.passed += passed;
  all.failed += failed;
}
export async function part(name, work) {
  if (only.length && !only.some(word => name.includes(word))) return;
  const outcome = await tried(work, name);
  if (outcome.failed) again.push([work, name]); else count(outcome);
}
async function tryAgain() {
  await beginAnew();
  for (const [work, name] of again) count(await tried(work, name, 'again  '));
}

// A page that is ready may not be painted yet, and its buttons are as its text has them.
export async function open(fragment = '') { await browser.open(PAGE + fragment, READY); await calm(); }
// Until the page has done, too, what it does by itself after a pause, as to compile what is typed. (Timers of a page keep their order: those
// of less than so many milliseconds come before this one, however late.)
export const settled = async () => { await run('new Promise(done => setTimeout(done, 150))'); await calm(); };
// Until the page has compared the run with the same steps at each k, which takes room.
export async function compared() {
  await until("!document.getElementById('comparison').hidden", 'the same steps at each k');
  await calm();
}
export const at = () => run('[workbench.bench.position, workbench.bench.run.length]');
export const textOf = selector => run(`document.querySelector(${JSON.stringify(selector)})?.textContent || ''`);
// A module with a memory of 64-bit addresses and nothing else.
export const hasMemory64 = () => run('WebAssembly.validate(new Uint8Array([0, 97, 115, 109, 1, 0, 0, 0, 5, 3, 1, 4, 1]))');

// Runs in the page: the event of words that are pasted. (Firefox takes them by `data` and `dataType`.)
export const PASTE = `words => { const clipboardData = new DataTransfer(); clipboardData.setData('text/plain', words);
  return new ClipboardEvent('paste', { clipboardData, data: words, dataType: 'text/plain', bubbles: true, cancelable: true }); }`;

// Until the browser has told its errors, which a busy one does late: no more come for a while.
export async function allTold() {
  for (let told = -1; told !== browser.errors.length; await browser.sleep(1000)) told = browser.errors.length;
}

export async function finish() {
  if (again.length) await tryAgain();
  all.errors.push(...browser.errors);
  must(all.errors.length === 0, 'script errors: ' + all.errors.slice(0, 3).join('; '));
  const seconds = Math.round((performance.now() - began) / 1000), more = again.length ? `, ${again.length} parts tried again` : '';
  console.log(`${browser.name}: ${all.passed} checks passed, ${all.failed} failed${more}, in ${seconds} s`);
  await browser.close();
  process.exit(all.failed ? 1 : 0);
}
