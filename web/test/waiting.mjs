// What takes long leaves the page free, can be stopped, and is dropped when something else is asked.
import { mkdtempSync, readFileSync, writeFileSync } from 'node:fs';
import { tmpdir } from 'node:os';
import { join } from 'node:path';
import { fileURLToPath } from 'node:url';
import { allTold, browser, calm, check, key, must, open, part, run, settled, textOf, until } from './kit.mjs';
import { EXAMPLES, PAGE, READY } from './paths.mjs';

// A source of the worst kind for the inference: a section of many locks behind many statements, 60 deep.
const times = (n, line) => Array.from({ length: n }, (_, i) => line(i)).join('');
const WORST = times(16, n => `global g${n};\n`) + 'fn main(t) {\n' + times(16, n => `p${n} = &g${n};\n`) + 'atomic { '.repeat(60)
  + times(400, () => 'x = t; '.repeat(100) + '\n') + times(2000, n => `f = &p${n % 16}[${n >> 4}]; x = *f; ` + (n % 20 ? '' : '\n')) + '}'.repeat(60) + '\nreturn t; }\n';
const COUNTER = readFileSync(EXAMPLES + 'counter.asl', 'utf8');

// Types a text, and answers as soon as the toolchain has been asked; what takes a moment only may have been compiled by then.
const begin = text => run(`(async () => { const t = document.getElementById('text'); t.value = ${JSON.stringify(text)};
  t.dispatchEvent(new Event('input'));
  const { bench } = workbench, asked = bench.turn; // which goes on when the text is taken to be compiled
  while (bench.turn === asked) await new Promise(done => setTimeout(done, 5)); })()`);
// Steps thread 0 by a click; answers after how many milliseconds that is painted, and whether the toolchain was at work all the time.
const CLICK = `(async () => { const { bench } = workbench, { length } = bench.run, began = performance.now(), busy = workbench.isBusy();
  document.querySelector('[data-step="0"]').click();
  await new Promise(done => requestAnimationFrame(() => setTimeout(done)));
  const shown = document.getElementById('position').textContent === 'after ' + (length + 1) + ' of ' + (length + 1) + ' events';
  return [performance.now() - began, busy && workbench.isBusy(), shown, !document.getElementById('working').hidden]; })()`;

// Of the processor, where the browser tells that: by the clock a click may take longer on a busy machine, whatever the page does. The
// least of several is judged, by what the same machine takes in the same minute when nothing compiles.
const ofProcessor = browser.name.startsWith('Chromium');
const spent = async () => (await browser.send('Performance.getMetrics')).result.metrics.find(({ name }) => name === 'TaskDuration').value;
async function clicked(times) {
  const all = [];
  for (let i = 0; i < times; i++) {
    const before = ofProcessor && await spent(), [took, ...said] = await run(CLICK);
    all.push([ofProcessor ? 1000 * (await spent() - before) : took, ...said]);
  }
  return all;
}
const paceOf = clicks => clicks.map(([took]) => Math.round(took)).sort((a, b) => a - b);

await part('a long compile: clicks are answered meanwhile, and it can be stopped', async () => {
  if (ofProcessor) await browser.send('Performance.enable', { timeDomain: 'threadTicks' });
  await open('#example=counter.asl&k=3&threads=2');
  await begin(WORST);
  const clicks = await clicked(5), paced = paceOf(clicks);
  check(clicks.every(([, busy]) => busy), 'the compile is over too soon: ' + JSON.stringify(clicks));
  check(clicks.every(([, , shown]) => shown), 'each step is shown');
  await until("workbench.isBusy() && !document.getElementById('working').hidden", 'the page says that it works');
  await run("document.getElementById('stop').click()"); await calm();
  check(/not compiled: it was stopped/.test(await textOf('#complaint')), 'stopped: ' + await textOf('#complaint'));
  check(await run("document.getElementById('working').hidden && workbench.bench.run.length") === clicks.length, 'and the run is there');
  const idle = paceOf(await clicked(5));
  check(paced[0] < Math.max(100, 4 * idle[0]), `clicks are answered after ${paced}, of an idle page after ${idle}`);
  console.log(`       clicks are answered after ${paced} ms ${ofProcessor ? 'of the processor ' : ''}while it compiles, then after ${idle}`);
  await begin(COUNTER); await settled();
  check(await run("workbench.bench.refusal === null && document.getElementById('complaint').hidden"), 'another text compiles after it');
});

await part('what is typed while an older text compiles stays', async () => {
  await open('#example=counter.asl&k=3&threads=2');
  const type = `(letter => { const t = document.getElementById('text'); t.focus(); t.setRangeText(letter, t.value.length, t.value.length, 'end');
    t.dispatchEvent(new Event('input')); })`;
  let typed = '';
  for (let i = 0; i < 12; i++) {
    const letter = i % 3 ? 'x' : '\n';
    typed += letter;
    await run(`${type}(${JSON.stringify(letter)})`);
    await browser.sleep([10, 125, 140][i % 3]); // (no waiting: a person who types now fast, now slowly)
    if (i % 2) await run("document.getElementById('theme').click()");
  }
  await settled();
  const [shown, at] = await run("[document.getElementById('text').value, document.getElementById('text').selectionStart]");
  check(shown === COUNTER + typed && at === shown.length, 'the text is ' + JSON.stringify(shown.slice(COUNTER.length)) + ', the cursor at ' + at);
  check(await run('workbench.bench.text === document.getElementById("text").value && workbench.bench.refusal !== null'), 'and is compiled');
});

await part('an answer that nobody wants any more is dropped', async () => {
  await open('#example=counter.asl&k=3&threads=2&steps=0011&at=4');
  await begin(WORST);
  await begin(COUNTER.replace('x + one', 'one + x')); await settled();
  check(await run("workbench.bench.builtText.includes('one + x') && workbench.bench.run.length === 4"), 'the last text is compiled');
  await run("Promise.all([workbench.bench.setK(1), workbench.bench.setK(7), workbench.bench.setThreads(3)])"); await settled();
  check(await run('workbench.bench.builtK === 7 && workbench.bench.run.threads === 3'), 'the last wish is fulfilled');
  await begin(WORST);
  await run("workbench.bench.load({ text: 'fn main(t) { return t; }', kind: 'asl', title: 'small.asl' })"); await settled();
  check(await run("workbench.bench.title === 'small.asl' && workbench.bench.program.code.length === 1"), 'what is opened takes its place');
});

await part('keys in a row are done in their order, though the toolchain takes its time', async () => {
  await open('#example=bank.asl&k=2&threads=4');
  await run("document.getElementById('most').value = 150");
  for (const name of ['R', 'ArrowLeft', 'ArrowLeft', '2', 'u', 'r', 'ArrowLeft']) await browser.strike(name);
  await calm();
  const [position, length] = await run('[workbench.bench.position, workbench.bench.run.length]');
  check(length > 150 && position === length - 1, `at ${position} of ${length}`);
});

await part('where the browser makes no worker, the page asks its own toolchain', async () => {
  const page = join(mkdtempSync(join(tmpdir(), 'workbench-')), 'alone.html');
  writeFileSync(page, readFileSync(fileURLToPath(PAGE), 'utf8').replace('worker-src blob:; ', ''));
  await browser.open('file://' + page + '#example=walk.asl&k=2&threads=2', READY);
  for (const name of ['k', 'R', 'x']) await key(name);
  check(await run("workbench.bench.builtK === 3 && workbench.bench.run.length > 20 && document.querySelector('.why') !== null"), 'compiles, runs, explains');
  await allTold();
  const others = browser.errors.filter(text => !/Content.Security.Policy/i.test(text));
  check(browser.errors.length > others.length, 'the policy refuses the worker: ' + browser.errors);
  must(others.length === 0, 'errors ' + others);
  browser.errors.length = 0;
});
