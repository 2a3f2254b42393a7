// Going further than a step, breakpoints as the native debugger has them, and prediction.
import { readFileSync } from 'node:fs';
import { asl, at, browser, calm, check, key, open, part, run, settled, textOf } from './kit.mjs';
import { EXAMPLES } from './paths.mjs';

const BANK = readFileSync(EXAMPLES + 'bank.asl'), lineOf = t => run(`(b => b.state.threads[${t}].pc === undefined ? -1 : b.names.line(b.state.threads[${t}].pc) + 1)(workbench.bench)`);
const codeAt = t => run(`(b => b.program.code[b.state.threads[${t}].pc])(workbench.bench)`);
const depthOf = t => run(`workbench.bench.state.threads[${t}].depth`);

await part('a thread goes to its next atomic, to the end of its section, to a line, to an event', async () => {
  await open('#example=bank.asl&k=0&threads=2');
  await key('g');
  check(/^acq/.test(await codeAt(0)) && await lineOf(0) === 8, 'g: line ' + await lineOf(0));
  const [first] = await at();
  await key('g');
  check(/^acq/.test(await codeAt(0)) && (await at())[0] > first && await depthOf(0) === 0, 'g again: the next one');
  await key('0'); check(await depthOf(0) === 1, 'inside');
  await key('G'); check(await depthOf(0) === 0 && await run('workbench.bench.last.after') === 0, 'G: to the end of the section');
  for (const name of ['I', '2', '2', 'Enter']) await key(name);
  check(await lineOf(0) === 22, 'I: line ' + await lineOf(0));
  for (const name of ['1', 'I', 'Enter']) await key(name);
  check(await lineOf(1) === 22, 'I keeps the line: ' + await lineOf(1));
  await key('0'); await key('1'); await key('Y');
  check(await run("workbench.bench.last.reply") === 'blocked' && await run('workbench.bench.last.thread') === 1, 'Y: to a blocked step');
  await key('0'); await key('Y');
  check(await run("workbench.bench.last.reply") === 'out' && await run('workbench.bench.last.thread') === 0, 'Y: to what it prints');
  const schedule = await run('workbench.bench.run.schedule'), file = asl(['step', '--threads', 2, '--record', ...schedule], asl(['compile', '--k', 0], BANK));
  check(asl(['replay'], file).toString() === `same ${schedule.length}\n`, 'the native program replays it');
  await key('Home');
  await run(`document.querySelectorAll('#gutter .row')[21].click()`); await calm();
  check((await at())[0] > 5 && await run("workbench.bench.state.threads.some(t => t.pc !== undefined && workbench.bench.names.line(t.pc) === 21)"), 'a click in the gutter');
  for (const name of ['I', '2', '0', 'Enter']) await key(name);
  check(/Line 20 has no instruction/.test(await textOf('#note')), 'a line without code: ' + await textOf('#note'));
});

await part('breakpoints stop where those of the native debugger do, forward and back', async () => {
  for (const [name, threads, lines] of [['queue.asl', 3, [12, 30]], ['bank.asl', 2, [22, 63]]]) {
    await open(`#example=${name}&k=1&threads=${threads}`);
    await run("document.getElementById('seed').value = 9; document.getElementById('most').value = 120");
    await key('R'); await key('Home');
    for (const line of lines) { await run(`document.querySelectorAll('#numbers .row')[${line - 1}].click()`); await calm(); }
    const places = await run(`(b => ${JSON.stringify(lines)}.map(line => b.program.code.findIndex((_, pc) => b.names.line(pc) === line - 1)).filter(pc => pc >= 0))(workbench.bench)`);
    const shown = await run("document.querySelectorAll('#numbers .break').length");
    check(places.length > 0 && shown === places.length, `${name}: ${shown} breakpoints are shown`);
    const schedule = await run('workbench.bench.run.schedule');
    const file = asl(['step', '--threads', threads, '--record', ...schedule], asl(['compile', '--k', 1], readFileSync(EXAMPLES + name)));
    const breaks = places.flatMap(pc => ['break', pc]), goes = (from, word, n) => asl(['debug', 'goto', from, ...breaks, ...Array(n).fill(word)], file)
      .toString().trim().split('\n').slice(1 + places.length).map(line => Number(/^at (\d+)/.exec(line)?.[1] ?? -1));
    const n = 6, forward = goes(0, 'next', n), seen = [];
    for (let i = 0; i < n; i++) { await key('.'); seen.push((await at())[0]); }
    const within = forward.findIndex(k => k < 0 || k === schedule.length), upTo = within < 0 ? n : within;
    check(upTo > 1 && String(seen.slice(0, upTo)) === String(forward.slice(0, upTo)), `${name}: forward ${seen}, native ${forward}`);
    const from = seen[upTo - 1], back = goes(from, 'prev', 3), went = [];
    await run(`workbench.bench.go(${from})`); await calm();
    for (let i = 0; i < 3; i++) { await key(','); went.push((await at())[0]); }
    const real = back.filter(k => k >= 0);
    check(String(went.slice(0, real.length)) === String(real), `${name}: back ${went}, native ${back}`);
    await key('c'); await key('.'); await settled();
    check(await run(`(b => b.state.threads.some(t => ${JSON.stringify(places)}.includes(t.pc)))(workbench.bench)`), `${name}: without a run the threads step to a breakpoint`);
    for (const line of lines) { await run(`document.querySelectorAll('#numbers .row')[${line - 1}].click()`); await calm(); }
    check(await run("document.querySelectorAll('#numbers .break').length") === 0, `${name}: and they are gone`);
    await key('.'); check(/no breakpoint/.test(await textOf('#note')), 'then there is none');
  }
});

await part('prediction: each step is asked for, judged by what came, and counted', async () => {
  await open('#example=counter.asl&k=3&threads=2&predict');
  check(await run("document.getElementById('predict').getAttribute('aria-pressed')") === 'true', 'a link turns it on');
  const counted = () => textOf('#predict-count'), asked = () => textOf('#predict-asked b');
  await key('0');
  check((await at())[0] === 0 && /What will it do/.test(await asked()), 'the step waits: ' + await asked());
  check(await run("document.getElementById('s-predict').contains(document.activeElement)"), 'the answers have the focus');
  await key('r'); await settled();
  check((await at())[0] === 1 && await counted() === '1 of 1 hit', 'a hit: ' + await counted());
  await key('0'); await key('b'); await key('1');
  check(/At which node/.test(await asked()), 'then at which node: ' + await asked());
  await key('1'); await settled();
  check((await at())[0] === 2 && await counted() === '1 of 2 hit' && /A miss: thread 0 ran/.test(await textOf('#predict-asked')), 'a miss: ' + await textOf('#predict-asked'));
  check(!/in the way/.test(await textOf('#lanes')), 'what is to be predicted is not told');
  await key('1'); await key('Escape');
  check((await at())[0] === 2, 'Escape makes no step');
  await key('1'); await key('r'); await settled();
  await key('1'); await key('b'); await key('0');
  const nodes = await run("[...document.querySelectorAll('.answers button')].map(b => b.textContent)");
  check(nodes.length === 3 && /^root/.test(nodes[0]) && /^leaf 0\.0 \(count\)/.test(nodes[2]), 'the nodes that it asks at: ' + nodes);
  await key('3'); await settled();
  check(await counted() === '3 of 4 hit' && /thread 1 is blocked by T0 at leaf 0\.0 \(count\)/.test(await textOf('#predict-asked')), await textOf('#predict-asked'));
  await key('1'); await key('b'); await key('0'); await key('1'); await settled();
  check(await counted() === '3 of 5 hit', 'a wrong node is a miss: ' + await counted());
  await run("document.getElementById('predict-all').click()"); await calm();
  await key('0'); await settled();
  check((await at())[0] === 6, 'at an atomic only: other steps are not asked for');
  await key('P'); await key('1'); await settled();
  check((await at())[0] === 7 && await run("document.getElementById('s-predict').hidden"), 'P turns it off');
});

await part('prediction: who is in the way counts, one is not in one\'s own way, and what cannot be asked is not', async () => {
  const counted = () => textOf('#predict-count'), asked = () => textOf('#predict-asked b'), choices = () => run("[...document.querySelectorAll('.answers button')].map(b => b.textContent.trim()).join()");
  await open('#example=counter.asl&k=3&threads=3&steps=00&at=2&predict');
  await key('1'); await key('r'); await settled(); await key('1'); await key('b');
  check(await choices() === 'T0 0,T2 2', 'who may be in the way: ' + await choices());
  await key('2'); await key('3'); await settled();
  check(await counted() === '1 of 2 hit' && /blocked by T0/.test(await textOf('#predict-asked')), 'it was another one: ' + await textOf('#predict-asked'));
  await key('1'); await key('b'); check(/in its way/.test(await asked()), await asked());
  await run("document.querySelectorAll('.head')[2].click()"); await calm();
  check(/What will it do/.test(await asked()) && await run("document.querySelector('#predict-asked .chip').textContent") === 'T2', 'another thread is asked for anew: ' + await textOf('#predict-asked'));
  await key('Escape'); await key('P'); await key('P'); await settled();
  check(await counted() === '', 'turned on again, it counts from the start: ' + await counted());
  await open('#example=counter.asl&k=3&threads=1&steps=0&at=1&predict');
  await key('0'); await key('b'); await settled();
  check((await at())[0] === 2 && await counted() === '0 of 1 hit', 'where nobody else runs, nobody is asked for: ' + await textOf('#predict-asked'));
  await key('P'); for (let i = 0; i < 9; i++) await key('0');
  const [, length] = await at(); await key('P'); await key('0'); await settled();
  check(!/What will it do/.test(await asked()) && String(await at()) === `${length + 1},${length + 1}` && await run('workbench.bench.last.reply') === 'ended', 'a thread that has ended is not asked for, and steps: ' + await at());
  await open('#example=nested.asl&k=3&threads=2&predict=atomic'); await key('g'); await settled();
  const outer = await at();
  await key('0'); check(/What will it do/.test(await asked()), 'at an atomic: ' + await asked()); await key('r'); await settled();
  for (let i = 0; i < 30 && (await depthOf(0)) < 2 && !/What/.test(await asked()); i++) { await key('0'); if (/What/.test(await asked()) && await depthOf(0) === 0) { await key('r'); await settled(); } }
  check(outer[0] > 0 && await depthOf(0) === 2, 'an atomic inside a section asks for nothing: ' + await textOf('#predict-asked'));
});

await part('who goes further, how far, and what is said of it; breakpoints by the dialog, by p and in a program that is scrolled', async () => {
  const schedule = () => run('workbench.bench.run.schedule.join("")'), breaks = () => run("[...document.querySelectorAll('#numbers .break')].map(row => row.textContent.trim()).join()");
  await open('#example=counter.asl&k=3&threads=2&steps=01&at=1');
  await key('G'); await settled();
  check(/^0+$/.test(await schedule()) && await run('workbench.bench.last.after') === 0 && await depthOf(0) === 0 && /^\w+ /.test(await codeAt(0)) && (await at())[0] > 5, 'the thread that stepped last goes, from before its section to the end of it: ' + await schedule());
  await open('#example=counter.asl&k=3&threads=2'); await key('G'); await settled();
  check(await run('workbench.bench.last.depth > 0 && workbench.bench.last.after === 0'), 'from the start, too: ' + await schedule());
  await open('#example=counter.asl&k=3&threads=2&steps=00&at=2'); await key('1'); await key('g'); await settled();
  check(await textOf('#note') === '1 step further, thread 1 is blocked.', await textOf('#note'));
  await open('#example=counter.asl&k=3&threads=2'); await key('I'); await browser.typed('5');
  await run("[...document.querySelectorAll('#dialog-body button')].find(e => e.textContent === 'Breakpoint').click()"); await calm();
  check(await breaks() === '5' && await run("document.getElementById('note').hidden"), 'a breakpoint at line 5: ' + await breaks());
  await run("document.querySelectorAll('#numbers .row')[0].click()"); await calm();
  check(await breaks() === '5', 'a line without an instruction has none: ' + await breaks());
  await key('.'); await settled(); const first = await schedule(); await key('.'); await settled();
  check(/^01/.test(first) && (await at())[0] > first.length && /is to step next, at the breakpoint/.test(await textOf('#note')), `the threads step in turn, and go on from a breakpoint: ${first}, ${await schedule()}`);
  await key('p'); await calm(); const line = await lineOf(await run('workbench.bench.last.thread'));
  check((await breaks()).split(',').includes(String(line)) !== (line === 5), `p at line ${line}: ${await breaks()}`);
  const long = `global g;\nfn main(t) {\n${Array.from({ length: 1500 }, () => '  x = t + t;\n').join('')}  return t;\n}\n`;
  await open(); await run(`workbench.bench.load({ text: ${JSON.stringify(long)}, kind: 'asl', title: 'long.asl', threads: 1 }).then(() => 1)`); await settled();
  await run("document.getElementById('editor').scrollTop = 1e6, 1"); await calm();
  await run("[...document.querySelectorAll('#numbers .row')].find(row => row.textContent.trim() === '1500').click()"); await calm();
  check(await breaks() === '1500', 'a click on a number where it is scrolled: ' + await breaks());
  for (const [to, wanted] of [[0, ''], [1e6, '1500']]) {
    await run(`document.getElementById('editor').scrollTop = ${to}, 1`); await calm();
    check(await breaks() === wanted, `scrolled to ${to} it is at its line: ` + await breaks());
  }
  await run("[...document.querySelectorAll('#numbers .row')].find(row => row.textContent.trim() === '1500').click()"); await calm();
  check(await breaks() === '', 'and again: ' + await breaks());
});
