// What waits, frames and objects at random positions, requests and clashes, many threads.
import { readFileSync } from 'node:fs';
import { asl, at, calm, check, key, open, part, run, settled } from './kit.mjs';
import { EXAMPLES } from './paths.mjs';
import { difference, randomRun } from './runs.mjs';

// The panels' lines of what waits, of frames and of objects, and what is wrong with their words.
const PANELS = `(() => { const all = (selector, name) => [...document.querySelectorAll(selector)].map(e => e.dataset[name]);
  const wrong = [...document.querySelectorAll('.wish')].filter(e => e.textContent !== (e.matches('.no') ? '✕ ' : '') + e.dataset.asks.split(' ').at(-1) + '?')
    .concat([...document.querySelectorAll('.object')].filter(e => { const [, , c, cells] = e.dataset.object.split(' ');
      return !e.querySelector('.title').textContent.includes(' class ' + c) || e.querySelectorAll('.cell').length !== Math.min(16, cells); })).map(e => e.textContent);
  const tops = [...document.querySelectorAll('.thread')].map(e => e.dataset.thread.split(' ')[1] + ': ' + (e.querySelector('.line .code')?.textContent || 'over'));
  return { asks: all('.wish', 'asks'), crossed: all('.wish.no', 'asks'), framed: all('.mode.clash', 'held'), frames: all('.frame', 'frame'),
    locals: all('.register', 'register').map(line => line.replace(/^reg (\\d+)/, 'local $1 0')), objects: all('.object', 'object'), wrong, tops }; })()`;

await part('waiting requests, frames and objects at random positions are what the program prints', async () => {
  const seen = {};
  for (const [name, threads, k] of [['bank.asl', 4, 0], ['hash.asl', 3, 3], ['tree.asl', 3, 0], ['sum.asm', 1, 3]]) {
    const { file, places } = await randomRun(name, threads, k, 17, 200), events = asl(['log'], file).toString().split('\n');
    const names = readFileSync(EXAMPLES + name, 'utf8').split(/^fn /m).slice(1).map((text, f) => (name.endsWith('.asl') ? /\w+/.exec(text)[0] : 'fn ' + f));
    for (const p of places) {
      const lines = asl(['debug', 'goto', p, 'asks', 'stack', 'objects'], file).toString().trim().split('\n').slice(1).map(line => line.split(' '));
      const waits = t => events.slice(0, p).findLast(line => line.split(' ')[1] === t)?.endsWith(' blocked');
      const told = (word, is = () => true) => lines.filter(words => words[0] === word && is(words)).map(words => words.join(' '));
      const clashes = lines.filter(words => words[0] === 'clash' && waits(words[1]));
      const tops = Object.fromEntries(lines.filter(words => words[0] === 'frame' && words[2] === '0').map(words => [words[1], `${names[words[4]]}, pc ${words[6]}`]));
      const native = { asks: told('asks', words => words.length > 2 && waits(words[1])), crossed: clashes.map(words => ['asks', ...words.slice(1, -2)].join(' ')),
        framed: clashes.map(words => ['held', words.at(-2), ...words.slice(2, -3), words.at(-1)].join(' ')), frames: told('frame', words => words[2] !== '0'),
        locals: told('local'), objects: told('object'), wrong: [], tops: Array.from({ length: threads }, (_, t) => `${t}: ${tops[t] || 'over'}`) };
      await run(`workbench.bench.go(${p})`); await calm();
      const shown = await run(PANELS), sorted = list => [...new Set(list)].sort().join('\n');
      for (const what in native) {
        seen[what] = (seen[what] || 0) + native[what].length;
        check(sorted(shown[what]) === sorted(native[what]), `${name} at ${p}: ${what}: ${difference(sorted(shown[what]), sorted(native[what]))}`);
      }
    }
  }
  check(['asks', 'crossed', 'frames', 'locals', 'objects'].every(what => seen[what] > 20), 'seen ' + JSON.stringify(seen));
  console.log('       compared', JSON.stringify(seen));
});

await part('128 threads, assembly texts, faults', async () => {
  const cases = [['nested.asl', 128, 2, 400], ['sum.asm', 1, 3, 200], ['unguarded-pair.asm', 2, 3, 60], ['hit.asl', 4, 3, 120], ['nesting.asm', 64, 3, 300]];
  for (const [name, threads, k, steps] of cases) {
    await open(`#example=${name}&k=${k}&threads=${threads}`);
    await run(`document.getElementById('seed').value = 3; document.getElementById('most').value = ${steps}`);
    await key('R');
    const [, length] = await at(), schedule = await run('workbench.bench.run.schedule'), text = readFileSync(EXAMPLES + name);
    const image = name.endsWith('.asl') ? asl(['compile', '--k', k], text) : asl(['asm'], text);
    const file = asl(['step', '--threads', threads, '--record', ...schedule], image);
    for (const p of [0, length >> 1, length - 1, length]) {
      const told = await run(`(async () => { await workbench.bench.go(${p}); await new Promise(d => requestAnimationFrame(() => setTimeout(d))); return workbench.tellView(workbench.bench.state); })()`);
      check('at ' + p + '\n' + told === asl(['debug', 'goto', p, 'view'], file).toString(), `${name} at ${p}`);
    }
  }
  await open('#example=counter.asm&threads=2');
  await run('workbench.bench.setThreads(999)'); await settled();
  check(await run('workbench.bench.threads') === 128, 'at most 128 threads');
});

await part('requests are what is granted, clashes are what blocks', async () => {
  let asked = 0;
  for (const [name, threads, k] of [['hash.asl', 3, 3], ['bank.asl', 4, 0], ['queue.asl', 3, 2], ['move.asl', 2, 0], ['hit.asl', 4, 3], ['nested.asl', 3, 3], ['unguarded-pair.asm', 2, 3], ['tree.asl', 8, 3]]) {
    await open(`#example=${name}&k=${k}&threads=${threads}`);
    await run("document.getElementById('seed').value = 11; document.getElementById('most').value = 400");
    await key('R');
    const [seen, wrong] = await run(`(() => { const { run } = workbench.bench; let seen = 0; const wrong = [];
      const lines = map => [...map].map(([node, mode]) => node + ' ' + (mode.mode || mode)).sort().join();
      run.events.forEach((event, k) => { if (event.pc < 0 || event.depth || !run.program.code[event.pc].startsWith('acq ')) return;
        seen++; const { nodes, clashes } = run.request(k, event.thread);
        if (event.reply === 'ran' && (clashes.length || lines(nodes) !== lines(run.view(k + 1).threads[event.thread].held))) wrong.push(k);
        if (event.reply === 'blocked' && !clashes.length) wrong.push(k); });
      return [seen, wrong]; })()`);
    asked += seen;
    check(wrong.length === 0, `${name}: requests at ${wrong}`);
  }
  console.log('      ', asked, 'requests compared');
});
