// Runs against the native program's views, and the events that wrote registers and cells.
import { readFileSync } from 'node:fs';
import { asl, at, browser, calm, check, key, open, part, run, textOf } from './kit.mjs';
import { EXAMPLES } from './paths.mjs';
import { difference, randomRun, STEPS } from './runs.mjs';

// What the page shows, read from its elements, in the lines of `view`.
const SHOWN = `(() => { const all = name => [...document.querySelectorAll('[data-' + name + ']')].map(e => e.dataset[name]);
  const says = (e, text) => { const [kind, v] = e.dataset[text].split(' ').slice(-2); return kind === 'int' ? e.textContent.endsWith(v) : v === 'null' ? e.textContent.endsWith('null') : e.textContent.includes('→ '); };
  const wrong = ['register', 'cell'].flatMap(name => [...document.querySelectorAll('[data-' + name + ']')].filter(e => !says(e, name)).map(e => 'text ' + e.textContent));
  return [...wrong, ...all('thread'), ...all('register').filter(line => !line.startsWith('local ')), ...all('cell'), ...all('held')].sort().join('\\n'); })()`;
const viewLines = text => text.trim().split('\n').filter(l => !l.startsWith('at ') && !l.startsWith('fresh ')).sort().join('\n');

await part('random steps on 3 examples: the page at each position is the native debugger\'s view', async () => {
  for (const [name, threads, k] of [['hash.asl', 3, 3], ['bank.asl', 4, 1], ['move.asl', 2, 0]]) {
    await open(`#example=${name}&k=${k}&threads=${threads}`);
    await run("document.getElementById('seed').value = 7; document.getElementById('most').value = " + STEPS);
    await key('R');
    const [, length] = await at();
    check(length > STEPS / 4 && length <= STEPS, `${name}: ${length} steps`);
    const schedule = await run('workbench.bench.run.schedule');
    const image = asl(['compile', '--k', k], readFileSync(EXAMPLES + name));
    const file = asl(['step', '--threads', threads, '--record', ...schedule], image);
    check(Buffer.from(await run('workbench.bench.run.file().then(file => btoa(String.fromCharCode(...file)))'), 'base64').equals(file), name + ': run file');
    for (let p = 0; p <= length; p++) {
      const native = asl(['debug', 'goto', p, 'view'], file).toString();
      const [told, shown] = await run(`(async () => { const { bench, tellView } = workbench; await bench.go(${p}); await new Promise(d => requestAnimationFrame(() => setTimeout(d))); return [tellView(bench.state), ${SHOWN}]; })()`);
      check('at ' + p + '\n' + told === native, `${name} at ${p}: state`);
      check(shown === viewLines(native), `${name} at ${p}: page: ${difference(shown, viewLines(native))}`);
    }
  }
});

// What the program prints at each position for some words.
const printedAt = (file, length, ...words) => asl(['debug', ...Array.from({ length: length + 1 }, (_, p) => ['goto', p, ...words]).flat()],
  file).toString().split(/^at \d+\n/m).slice(1);

// Who wrote what at a position, told forwards: the last event of each register, by thread, frame from below and number, and of each cell.
function writersAt(position, image, file, threads, views) {
  const program = asl(['dis'], image).toString().trim().split('\n'), written = {}, waits = [], stacks = Array(threads).fill(1);
  const code = program.filter(line => !/^(version|classes|global|entry|fn|list|expr|class|root)\b/.test(line));
  const parameters = program.flatMap(line => (line.startsWith('fn ') ? [Number(line.split(' ')[1])] : []));
  let objects = program.filter(line => line.startsWith('global ')).length;
  asl(['log', '--trace'], file).toString().split('\n').slice(0, position).forEach((line, k) => {
    const [, t, pc, , reply] = line.split(' '), [op, ...words] = reply === 'ran' ? code[pc].split(/,? /) : [''];
    const a = words[0]?.slice(1), frame = above => `register-${t}-${stacks[t] - 1 + above}-`;
    if (op === 'store') written['cell-' + new RegExp(`^reg ${t} ${a} addr (.*)$`, 'm').exec(views[k])[1]] = k;
    if (op === 'new') { for (let f = 0; f < words[1]; f++) written[`cell-${objects}.${f}`] = k; objects++; }
    if (op === 'call') {
      for (const keep in written) if (keep.startsWith(frame(1))) delete written[keep];
      for (let r = 0; r < parameters[words[2]]; r++) written[frame(1) + r] = k;
      waits.push([t, stacks[t]++, a]);
    } else if (op === 'ret' && stacks[t] > 1) {
      stacks[t]--;
      written[frame(0) + waits.splice(waits.findLastIndex(wait => wait[0] === t), 1)[0][2]] = k;
    } else if (/^(int|null|mov|add|sub|lt|eq|glob|field|load|new)$/.test(op)) written[frame(0) + a] = k;
  });
  return { written, code };
}

await part('registers and cells lead to the event that wrote them', async () => {
  let tried = 0, unwritten = 0;
  for (const [name, threads, k, steps] of [['hash.asl', 3, 3, 200], ['tree.asl', 2, 0, 150], ['sum.asm', 1, 3, 60]]) {
    const { image, file, length, places } = await randomRun(name, threads, k, 13, steps), views = printedAt(file, length, 'view');
    for (const p of places) {
      const { written, code } = writersAt(p, image, file, threads, views);
      await run(`workbench.bench.go(${p})`); await calm();
      const led = await run(`(async () => { const { bench } = workbench, led = [];
        for (const e of document.querySelectorAll('.register,.cell')) {
          await bench.go(${p}); e.click(); await bench.going; led.push([e.dataset.keep, bench.position]);
        }
        return led; })()`);
      if (!led.length) continue;
      for (const [keep, there] of led) check(there === (keep in written ? written[keep] + 1 : p), `${name} at ${p}: ${keep} leads to ${there}, of ${written[keep]}`);
      const [keep] = led[p % led.length], at = written[keep], [, thread, pc] = at === undefined ? [] : asl(['log', '--trace'], file).toString().split('\n')[at].split(' ');
      await run(`workbench.bench.go(${p})`); await calm();
      await run(`document.querySelector('[data-keep="${keep}"]').click()`); await calm();
      const told = at === undefined ? ' is as it began: nothing wrote it.' : ` was written by event ${at}, thread ${thread}: ${code[pc]}.`;
      check((await textOf('#say')).includes(told), `${name} at ${p}: ${keep}${told} / ${await textOf('#say')}`);
      tried += led.length; unwritten += led.filter(([is]) => !(is in written)).length;
    }
  }
  check(tried > 400 && unwritten > 40, 'values tried: ' + tried);
  console.log('      ', tried, 'values,', unwritten, 'of them as they began');
  await open('#example=counter.asl&k=3&threads=2&steps=000011000&at=9');
  await key('w'); check(/by Tab/.test(await textOf('#note')), 'w without a register or a cell says what to do');
  await run(`document.querySelector('[data-keep="cell-0.0"]').focus()`); await key('w');
  const said = await textOf('#say');
  check(/^count was written by event 7, thread 0: store r1, r4\./.test(await textOf('#say p+p')) && String(await at()) === '8,9', 'w: ' + said);
  await run(`document.querySelector('[data-register="reg 0 1 addr 0.0"]').focus()`); await key('w');
  check(String(await at()) === '1,9' && await run("document.activeElement.dataset.keep") === 'register-0-0-1', 'w goes back, and the focus stays');
  await key('ArrowRight'); check(!/written by/.test(await textOf('#say')), 'the next step says nothing of it');
  await browser.size(420, 900); await key('End');
  await run(`scrollTo(0, 9999); document.querySelector('[data-keep="cell-0.0"]').click()`); await calm();
  check(await textOf('#note:not([hidden])') === 'count was written by event 7, thread 0: store r1, r4.', 'where the sentence is out of sight a note says it');
  await browser.size(1400, 1000);
});
