// Two events in conflict, and the release and the grant between them: what the page says of each event is found once more, as tests/races
// does it, from what the native program prints of the run (docs/RACES.md).
import { readFileSync } from 'node:fs';
import { asl, at, check, key, open, part, run, settled, textOf, until } from './kit.mjs';
import { EXAMPLES } from './paths.mjs';

// What the debugger shows at a position.
function viewOf(text) {
  const view = { registers: {}, cells: {} };
  for (const [kind, a, b, ...rest] of text.split('\n').map(line => line.split(' '))) {
    if (kind === 'reg') view.registers[`${a} r${b}`] = rest;
    else if (kind === 'cell') view.cells[a] = [b, ...rest];
  }
  return view;
}
const pointed = ([kind, place] = []) => (kind === 'addr' ? place : null);
function readsOf({ registers, cells }, thread, locks) {
  const read = [];
  for (const [base, ...path] of locks) {
    let now = base[0] === 'g' ? base.slice(1) + '.0' : pointed(registers[`${thread} ${base}`]);
    for (const step of path) {
      if (now === null) break;
      if (step === '*') { read.push(now); now = pointed(cells[now]); continue; }
      const [object, offset] = now.split('.');
      now = `${object}.${Number(offset) + Number(step.slice(1))}`;
      if (!(now in cells)) now = null;
    }
  }
  return read;
}
// The code and the lists of an assembly text, as words.
function programOf(text) {
  const code = [], lists = [];
  for (const words of text.trim().split('\n').map(line => line.replaceAll(',', ' ').split(/ +/))) {
    if (words[0] === 'list') lists.push([]);
    else if (words[0] === 'expr') lists.at(-1).push(words.slice(1, -1));
    else if (!/^(version|classes|global|entry|fn|class|root)$/.test(words[0])) code.push(words);
  }
  return { code, lists };
}
function eventsOf(text, image, threads, schedule) {
  const { code, lists } = programOf(text), file = asl(['step', '--threads', threads, '--record', ...schedule], image);
  const words = ['view', ...schedule.flatMap(() => ['forward', 'view'])];
  const views = asl(['debug', ...words], file).toString().split(/^at \d+\n/m).map(viewOf);
  if (views.length > schedule.length + 1) views.shift(); // before the first `at`
  return asl(['log', '--trace'], file).toString().trim().split('\n').map((line, k) => {
    const [, thread, pc, depth, reply] = line.split(' '), [op, a, b] = pc === '-' ? ['ended'] : code[pc], ran = reply === 'ran';
    const before = views[k], after = views[k + 1], outside = depth === '0', place = r => before.registers[`${thread} ${r}`][1];
    const reads = !ran ? [] : op === 'load' ? [place(b)] : op === 'acq' && outside ? readsOf(before, thread, lists[a]) : [];
    const writes = !ran ? [] : op === 'store' ? [place(a)] : op === 'new' ? Object.keys(after.cells).filter(cell => !(cell in before.cells)) : [];
    return { thread, reads, writes, gives: (ran && op === 'rel' && depth === '1') || (reply === 'fault' && !outside && depth !== '-'),
      gets: ran && op === 'acq' && outside };
  });
}
// The four events of an event, or what there is of them: without a conflict, none.
function orderOf(events, second) {
  const own = events[second], meet = ({ thread, reads, writes }) => thread !== own.thread
    && (writes.some(cell => own.reads.includes(cell) || own.writes.includes(cell)) || reads.some(cell => own.writes.includes(cell)));
  const first = events.slice(0, second).findLastIndex(meet);
  if (first < 0) return [];
  const release = events.findIndex((event, k) => k > first && k < second && event.thread === events[first].thread && event.gives);
  const grant = events.findLastIndex((event, k) => k <= second && event.thread === own.thread && event.gets);
  return [...new Set(release >= 0 && grant > release ? [first, release, grant, second] : [first, second])];
}
// What the page says of each position: the events of its row, and those that are marked in the timeline.
const TOLD = `(async places => { const told = [], frame = () => new Promise(done => { requestAnimationFrame(() => setTimeout(done)); setTimeout(done, 5000); });
  const numbers = selector => [...document.querySelectorAll(selector)].map(e => Number(e.dataset.event));
  for (const k of places) { await workbench.bench.go(k + 1); do await frame(); while (workbench.isBusy()); await frame();
    told.push([numbers('#s-order button'), numbers('.order-mark')]); }
  return told; })`;
// Two sections of a thread behind the release, of which the first does not touch the cell.
const TWO = 'global x; global y; fn main(t) { p = &x; q = &y; atomic { b = *q; } atomic { a = *p; *p = t; } return t; }';
const RUNS = [['two.asl', 3, 2, 0, TWO, [...Array(12).fill(0), ...Array(12).fill(1)]], ['nested.asl', 3, 2, 0, null, [...Array(45).fill(0), ...Array(30).fill(1)]], ['counter.asl', 3, 2, 5], ['bank.asl', 0, 3, 2], ['queue.asl', 3, 3, 4], ['move.asl', 2, 2, 7], ['hash.asl', 3, 3, 3], ['tree.asl', 3, 2, 6]];
const STEPS = Number(process.env.STEPS || 200);

await part('the order of two events in conflict is that of the native journal, at each position', async () => {
  let pairs = 0, handed = 0;
  for (const [name, k, threads, seed, text, steps] of RUNS) {
    await open(`#example=${text ? 'counter.asl' : name}&k=${k}&threads=${threads}&order`);
    const source = text || readFileSync(EXAMPLES + name, 'utf8');
    if (steps) await run(`workbench.bench.load(${JSON.stringify({ text: source, kind: 'asl', title: name, k, threads, schedule: steps, position: 0, lesson: null })})`);
    else {
      await run(`document.getElementById('seed').value = ${seed}; document.getElementById('most').value = ${STEPS}`);
      await key('R');
    }
    await settled();
    const schedule = await run('workbench.bench.run.schedule');
    const events = eventsOf(asl(['compile', '--text', '--k', k], source).toString(), asl(['compile', '--k', k], source), threads, schedule);
    const all = events.map((_, at) => at).filter(at => events[at].reads.length || events[at].writes.length || at % 7 === 0);
    const places = all.filter((_, i) => i % Math.ceil(all.length / 30) === 0);
    const told = await run(`${TOLD}(${JSON.stringify(places)})`);
    places.forEach((place, i) => {
      const wanted = orderOf(events, place), [row, marks] = told[i];
      pairs += wanted.length > 0; handed += wanted.length > 2;
      check(String(row) === String(wanted), `${name}, event ${place}: ${row} / ${wanted}`);
      check(String(marks) === String(wanted), `${name}, event ${place}: marked ${marks} of ${wanted}`);
    });
    check(events.every((_, place) => orderOf(events, place).length !== 2), name + ': each pair is ordered');
  }
  check(pairs > STEPS / 20 && handed === pairs, `${pairs} pairs, ${handed} handed over`);
});

await part('the order: by keys from one of the four to the next, by a link, and off', async () => {
  await open('#example=counter.asl&k=3&threads=2&steps=0010100010111&at=12');
  check(await run("document.getElementById('s-order').hidden"), 'it is off at first');
  await key('q'); await settled();
  const said = (await textOf('#s-order')).replace(/\s+/g, ' ');
  check(/Order at count: 1 7 T0 writes → 2 9 T0 gives back X → 3 10 T1 is granted X → 4 11 T1 reads/.test(said), said);
  const went = [], current = () => run("[...document.querySelectorAll('#s-order [aria-current]')].map(e => Number(e.dataset.event))");
  for (let i = 0; i < 5; i++) { await key('q'); await settled(); went.push((await at())[0] - 1); check(String(await current()) === String(went.at(-1)), 'shown as the present one'); }
  check(String(went) === '7,9,10,11,7', 'q goes round: ' + went);
  await run("document.querySelector('#s-order [data-event=\"9\"]').click()"); await settled();
  check(String(await at()) === '10,13' && await run("document.querySelectorAll('.order-mark').length") === 4, 'a click goes there, and the four stay');
  await key('ArrowRight'); await key('ArrowRight'); await key('ArrowRight'); await settled();
  check(/touches no cell/.test(await textOf('#s-order')), 'another event is one of its own: ' + await textOf('#s-order'));
  await key('End'); await key('q'); await settled();
  check(String(await at()) === '12,13' && /4 11 T1 reads/.test((await textOf('#s-order')).replace(/\s+/g, ' ')), 'q goes back to the last event in conflict: ' + await at());
  await key('Home'); await key('q'); await settled();
  check(/^No event before/.test(await textOf('#note')), await textOf('#note'));
  await key('End'); await settled();
  await until('/&order\\b/.test(location.hash)', async () => 'the link has it: ' + await run('location.hash'));
  const link = await run('location.hash');
  await key('Q'); await settled();
  check(await run("document.getElementById('s-order').hidden && !document.querySelector('.order-mark')"), 'Q turns it off');
  await open(link); await settled();
  check(!await run("document.getElementById('s-order').hidden"), 'the link brings it back');
  for (const name of ['End', 'ArrowLeft', 'ArrowLeft', 'ArrowLeft', '0', '1', '1']) await key(name);
  await settled();
  const row = await run("[...document.querySelectorAll('#s-order button')].map(e => e.dataset.event)");
  check(String(row) === '7,9,11,12', 'on another branch it is that of its events: ' + row);
});

await part('the order: entries that read what another stores to are ordered by nothing', async () => {
  const name = 'unguarded-pair.asm', schedule = [...Array(6).fill(0), ...Array(6).fill(1), 0, 1], text = readFileSync(EXAMPLES + name, 'utf8');
  await open(`#example=${name}&threads=2&steps=${schedule.join('')}&at=14&order`); await settled();
  const events = eventsOf(text, asl(['asm'], text), 2, schedule), places = [11, 12, 13], told = await run(`${TOLD}(${JSON.stringify(places)})`);
  places.forEach((place, i) => check(String(told[i][0]) === String(orderOf(events, place)), `event ${place}: ${told[i][0]} / ${orderOf(events, place)}`));
  check(orderOf(events, 13).length === 2 && /▲ no lock orders them/.test(await textOf('#s-order')), await textOf('#s-order'));
});

// How fast the machine is does not matter: the step is painted while it is still looked for.
await part('the order: of 10,000 events it is found a few at a time, and a step does not wait for it', async () => {
  await open('#example=counter.asl&threads=2&order');
  const text = 'global g; fn f(p) { atomic { x = *p; } return x; } fn main(t) { p = &g; one = 1; if t { n = new 1; while one { x = f(n); } } while one { x = f(p); } return t; }';
  await run(`workbench.bench.load({ text: ${JSON.stringify(text)}, kind: 'asl', title: 'long.asl', k: 3, threads: 2, schedule: Array.from({ length: 10000 }, (_, i) => i % 2), position: 9990, lesson: null })`);
  await settled();
  const [shown, looking, pieces] = await run(`(async () => { const { bench } = workbench; let k = 9900; while (!bench.program.code[bench.run.events[k].pc].startsWith('load ')) k++;
    await bench.go(k + 1);
    await new Promise(done => requestAnimationFrame(() => setTimeout(done)));
    const shown = document.getElementById('position').textContent, looking = workbench.isBusy(); let pieces = 0;
    while (workbench.isBusy()) { await new Promise(done => setTimeout(done)); pieces++; }
    return [shown === 'after ' + (k + 1) + ' of 10000 events', looking, pieces]; })()`);
  check(shown && looking && pieces > 0, `painted ${shown}, and then looked for ${looking}, in ${pieces} pieces`);
  await settled();
  check(/no earlier event/.test(await textOf('#s-order')), await textOf('#s-order'));
});
