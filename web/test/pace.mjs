// How long a new step and a move take, from the key to the painted frame, with runs of 100, 1,000 and 10,000 events:
//   node web/test/pace.mjs [--firefox] [THREADS]        the least and the median of fifteen, in milliseconds
// Where the browser tells it, what is measured is the processor's time of the page's thread, and how much of it are the script, the
// styles, the layout, and all the rest, which is mostly painting. Of a step the toolchain may take at most 4 ms, and all at most 16 ms,
// else it fails; also while the order of two events is told. The least of the fifteen is judged, so that what else the machine does takes
// no part in it; where the browser does not tell the processor's time, only the toolchain is judged.
import { loadavg } from 'node:os';
import { browser, calm, open, run } from './kit.mjs';

const THREADS = Number(process.argv.slice(2).find(word => /^\d+$/.test(word)) || 8);
const SOURCE = 'global count; fn add(p, v) { atomic { x = *p; y = x + v; *p = y; } return y; } '
  + 'fn main(t) { p = &count; one = 1; n = one; while n { y = add(p, one); } return t; }';
const COUNTS = [100, 1000, 10000];
const MOST = 16, MOST_TOOLCHAIN = 4, TIMES = 15;
const PARTS = { processor: 'TaskDuration', script: 'ScriptDuration', style: 'RecalcStyleDuration', layout: 'LayoutDuration' };

// Runs in the page: presses once; answers what that took, and how often and how long the toolchain was asked.
const PRESS = `async press => { const before = workbench.toolStatistics(), t = performance.now(); press();
  await new Promise(d => requestAnimationFrame(() => setTimeout(d)));
  const took = performance.now() - t, after = workbench.toolStatistics();
  return [took, after.calls - before.calls, after.milliseconds - before.milliseconds]; }`;
const key = name => `document.dispatchEvent(new KeyboardEvent('keydown', { key: ${name} }))`;

const ofProcessor = browser.name.startsWith('Chromium');
if (ofProcessor) await browser.send('Performance.enable', { timeDomain: 'threadTicks' });
async function processor() {
  if (!ofProcessor) return {};
  const told = new Map((await browser.send('Performance.getMetrics')).result.metrics.map(({ name, value }) => [name, 1000 * value]));
  const spent = Object.fromEntries(Object.entries(PARTS).map(([part, name]) => [part, told.get(name)]));
  return { ...spent, rest: spent.processor - spent.script - spent.style - spent.layout };
}
const median = list => [...list].sort((a, b) => a - b)[list.length >> 1];

// What a press of each of so many takes: `what` tells the one of number i.
async function press(what, times = TIMES) {
  const all = [];
  for (let i = 0; i < times; i++) {
    const before = await processor(), [took, calls, toolchain] = await run(`(${PRESS})(() => ${what(i)})`), after = await processor();
    const spent = Object.keys(after).map(part => [part, after[part] - before[part]]);
    all.push({ ...Object.fromEntries(spent), toolchain, calls, 'by the clock': took });
  }
  const of = part => all.map(one => one[part]), range = part => `${Math.min(...of(part)).toFixed(1)} to ${median(of(part)).toFixed(1)}`;
  const words = Object.keys(all[0]).filter(part => part !== 'calls').map(part => `${part} ${range(part)}`).join(', ');
  return { words: `${words}, ${median(of('calls'))} calls`, toolchain: Math.min(...of('toolchain')),
    processor: ofProcessor ? Math.min(...of('processor')) : 0 };
}

// Until nothing more comes of what was done: what the page does after a pause, so many milliseconds of its own, is over.
async function rest(pause) {
  await run(`new Promise(done => setTimeout(done, ${pause}))`);
  await calm();
}

await browser.size(1400, 1000);
await open();
console.log(`${browser.name}, ${THREADS} threads, load ${loadavg()[0].toFixed(1)}`);
let slow = false;
for (const count of COUNTS) {
  await run(`workbench.bench.load({ text: ${JSON.stringify(SOURCE)}, kind: 'asl', title: 'long.asl', k: 3, threads: ${THREADS} })`);
  await browser.frames();
  const made = await run(`(async () => { const t = performance.now(), { bench } = workbench, { length } = bench.run;
    document.getElementById('most').value = ${count}; document.getElementById('robin').click();
    do await new Promise(d => requestAnimationFrame(() => setTimeout(d))); while (bench.run.length === length || bench.going);
    return performance.now() - t; })()`);
  await rest(1500);
  const step = await press(i => key(String(i % Math.min(THREADS, 8))));
  slow ||= step.toolchain > MOST_TOOLCHAIN || step.processor > MOST;
  console.log(`${await run('workbench.bench.run.length')} events made in ${made.toFixed(0)}`);
  console.log('    step', step.words);
  await run(`workbench.bench.go(Infinity).then(() => ${key("'q'")})`);
  await rest(500);
  const told = await press(i => key(String(i % Math.min(THREADS, 8))));
  slow ||= told.processor > MOST;
  console.log('    step while the order of two events is told', told.words);
  await run(key("'Q'"));
  console.log('    back', (await press(() => key("'ArrowLeft'"))).words);
  console.log('    forward', (await press(() => key("'ArrowRight'"))).words);
  console.log('    to the middle', (await press(i => `workbench.bench.go(${count} / 2 - ${Math.min(50, count / 40)} * ${i})`)).words);
}
if (slow) console.log(`a step takes more than ${MOST} ms of the processor, or more than ${MOST_TOOLCHAIN} ms of the toolchain`);
await browser.close();
process.exit(slow ? 1 : 0);
