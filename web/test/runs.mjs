// What several topics of the tests of the page share: typing, random runs, and how a difference is told.
import { readFileSync } from 'node:fs';
import { asl, at, key, open, run, settled } from './kit.mjs';
import { EXAMPLES } from './paths.mjs';

export const type = async text => {
  await run(`(() => { const t = document.getElementById('text'); t.value = ${JSON.stringify(text)}; t.dispatchEvent(new Event('input')); })()`);
  await settled();
};

// What is saved, { name, text }, when something is pressed; null where nothing is within a minute.
export const savedWhen = press => run(`(async () => { const made = URL.createObjectURL, { click } = HTMLAnchorElement.prototype; let saved = null, name = '';
  URL.createObjectURL = blob => made.call(URL, /octet/.test(blob.type) ? saved = blob : blob); HTMLAnchorElement.prototype.click = function () { name = this.download; };
  ${press};
  for (const late = performance.now() + 60000; !(saved && name) && performance.now() < late;) await new Promise(done => setTimeout(done, 20));
  URL.createObjectURL = made; HTMLAnchorElement.prototype.click = click; return saved && JSON.stringify({ name, text: await saved.text() }); })()`).then(JSON.parse);
export const BUTTON = words => `[...document.querySelectorAll('.files button')].find(e => e.textContent === '${words}').click()`;
// What a button of the share dialog saves, as text.
export const savedBy = async words => (await savedWhen(BUTTON(words)))?.text ?? '';

export const difference = (a, b) => { const x = a.split('\n'), y = b.split('\n'); return 'shown ' + x.filter(l => !y.includes(l)).slice(0, 3) + ' / native ' + y.filter(l => !x.includes(l)).slice(0, 3); };

export const STEPS = Number(process.env.STEPS || 200);
export const LONG = 'global count; fn add(p, v) { atomic { x = *p; y = x + v; *p = y; } return y; } '
  + 'fn main(t) { p = &count; one = 1; n = one; while n { y = add(p, one); } return t; }';

// What is shown at random positions of a run, with the program and its run file.
export async function randomRun(name, threads, k, seed, steps) {
  await open(`#example=${name}&k=${k}&threads=${threads}`);
  await run(`document.getElementById('seed').value = ${seed}; document.getElementById('most').value = ${steps}`);
  await key('R');
  const text = readFileSync(EXAMPLES + name), image = name.endsWith('.asl') ? asl(['compile', '--k', k], text) : asl(['asm'], text);
  const file = asl(['step', '--threads', threads, '--record', ...await run('workbench.bench.run.schedule')], image);
  const [, length] = await at(), places = Array.from({ length: Math.min(8, STEPS) }, (_, i) => (i * 7919 * seed) % (length + 1));
  return { image, file, length, places };
}
