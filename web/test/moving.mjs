// Back, forward, branches, sessions and a long run.
import { asl, at, browser, calm, check, key, open, part, run } from './kit.mjs';
import { LONG } from './runs.mjs';

await part('back, forward, branch, undo, redo', async () => {
  await open('#example=counter.asl&k=3&threads=2');
  for (const digit of '0011') await key(digit);
  check(String(await at()) === '4,4', 'four steps ' + await at());
  await key('ArrowLeft'); await key('ArrowLeft');
  check(String(await at()) === '2,4', 'back twice');
  await key('1');
  check(String(await at()) === '3,4', 'the recorded step is only shown');
  await key('ArrowLeft');
  await key('0');
  check(String(await at()) === '3,3' && String(await run('workbench.bench.run.schedule')) === '0,0,0', 'a branch');
  await key('u');
  check(String(await at()) === '2,4' && String(await run('workbench.bench.run.schedule')) === '0,0,1,1', 'undo');
  await key('U');
  check(String(await run('workbench.bench.run.schedule')) === '0,0,0', 'redo');
  await key('c');
  check(String(await at()) === '0,0', 'clear');
  await key('u');
  check(String(await at()) === '3,3', 'undo of clear');
});

await part('sessions: a run has one, which is closed behind it, and memory is steady', async () => {
  await open('#example=counter.asl&k=3&threads=2');
  const statistics = () => run('JSON.stringify(workbench.toolStatistics())').then(JSON.parse);
  const bytes = [];
  for (let round = 0; round < 12; round++) {
    for (const name of ['hash.asl', 'sum.asm', 'nested.asl']) {
      await run(`(() => { const e = document.getElementById('example'); e.value = '${name}'; e.dispatchEvent(new Event('change')); e.blur(); })()`);
      for (const pressed of ['R', 'ArrowLeft', '0', 'u', 'U', 't', 'T', 'k', 'c']) await browser.strike(pressed);
      await calm();
      check((await statistics()).sessions === 1, `${name}: ${(await statistics()).sessions} sessions`);
    }
    bytes.push((await statistics()).bytes);
  }
  // (a page more, since not always the same keys come before an answer)
  check(bytes.at(-1) - bytes[4] <= 65_536, 'bytes of the module: ' + bytes);
  await run("workbench.bench.load({ text: 'fn main(t) {', kind: 'asl', title: 'refused.asl' })");
  check((await statistics()).sessions === 0 && await run('workbench.bench.run === null'), 'a text that is refused has none');
});

await part('a long run: undo, redo and steps at 3,000 events are what the native program records', async () => {
  await open('#example=bank.asl&k=2&threads=4');
  await run(`workbench.bench.load({ text: ${JSON.stringify(LONG)}, kind: 'asl', title: 'long.asl', k: 3, threads: 3 })`);
  await run("document.getElementById('seed').value = 5; document.getElementById('most').value = 3000");
  for (const pressed of ['R', '1', '2', '0']) await key(pressed);
  await run('workbench.bench.go(2900)');
  await key(String((await run('workbench.bench.next.thread') + 1) % 3));
  check(String(await at()) === '2901,2901', 'a branch ' + await at());
  await key('u');
  check(String(await at()) === '2900,3003', 'undo ' + await at());
  for (const pressed of ['U', 'u', 'End', '0', '1']) await key(pressed);
  const image = asl(['compile', '--k', 3], LONG);
  const file = asl(['step', '--threads', 3, '--record', ...await run('workbench.bench.run.schedule')], image);
  const traced = asl(['log', '--trace'], file).toString();
  const told = await run("workbench.bench.run.events.map(({ thread, pc, depth, reply }, k) => [k, thread, pc < 0 ? '-' : pc, pc < 0 ? '-' : depth, reply].join(' ')).join('\\n') + '\\n'");
  check(told === traced, 'the trace');
  const wrong = await run(`(() => { const { run } = workbench.bench, { events } = run; return [0, 1, 31, 32, 255, 256, 257, 1500, 2899, 2900, 3002, 3004].filter(k => {
    const { thread, pc, depth, after } = events[k], a = run.view(k).threads[thread], b = run.view(k + 1).threads[thread];
    return a.pc !== pc || a.depth !== depth || (b.depth || 0) !== after; }); })()`);
  check(wrong.length === 0, 'places and depths of events ' + wrong);
  for (const p of [3005, 2999, 256, 255, 0]) {
    await run(`workbench.bench.go(${p})`); await browser.frames();
    check('at ' + p + '\n' + await run('workbench.tellView(workbench.bench.state)') === asl(['debug', 'goto', p, 'view'], file).toString(), 'state at ' + p);
  }
});
