// What is long stays usable: many frames, many sections, twenty thousand lines; panels as high as the window at most, which show where one is.
import { mkdtempSync, writeFileSync } from 'node:fs';
import { tmpdir } from 'node:os';
import { join } from 'node:path';
import { browser, calm, check, key, open, part, PASTE, run, settled, textOf, until } from './kit.mjs';
import { savedBy } from './runs.mjs';

const load = async (text, threads, schedule) => {
  await run(`workbench.bench.load({ text: ${JSON.stringify(text)}, kind: 'asl', title: 'long.asl', k: 1, threads: ${threads}, schedule: ${schedule}, position: 1e9 })`);
  await settled();
};
// Whether an element is in sight within a box.
const within = (inner, box) => run(`(() => { const a = document.querySelector('${inner}')?.getBoundingClientRect(), b = document.querySelector('${box}').getBoundingClientRect();
  return Boolean(a && a.height && a.top >= b.top - 1 && a.top + Math.min(a.height, 20) <= b.bottom + 1); })()`);
const height = selector => run(`[document.querySelector('${selector}').offsetHeight, innerHeight]`);

await part('510 frames: the panel of threads is no higher than the window, and shows the thread of the last event', async () => {
  await open('#example=counter.asl');
  await load('fn deep(n) { one = 1; m = n + one; x = deep(m); return x; } fn main(t) { x = deep(t); return x; }', 2, 'Array.from({ length: 2030 }, (_, i) => i % 2)');
  check(await run("document.querySelectorAll('.frame').length") >= 508, 'frames: ' + await run("document.querySelectorAll('.frame').length"));
  for (const thread of ['0', '1', '0']) {
    await key(thread);
    const [high, window] = await height('#s-threads');
    check(high <= window, `${high} of ${window}`);
    check(await within(`[data-thread^="thread ${thread} "] > .line`, '#threads'), `thread ${thread} is in sight`);
  }
});

await part('a hundred sections: the panel of lists is no higher than the window, and shows the section that one is in', async () => {
  await open('#example=counter.asl');
  const text = 'global g;\nfn main(t) {\n  p = &g;\n' + '  atomic {\n    x = *p;\n    *p = x;\n  }\n'.repeat(100) + '  return t;\n}\n';
  await load(text, 2, '[0, 0]');
  for (const [steps, section] of [[0, 0], [4 * 30, 30], [4 * 60, 90]]) {
    await run(`document.getElementById('most').value = ${steps || 1}`);
    if (steps) { await run("document.getElementById('threads-wanted').value = 1; document.getElementById('threads-wanted').dispatchEvent(new Event('change'))"); await settled(); await key('r'); }
    const [high, window] = await height('#s-sections'), here = await run("document.querySelector('.matrix.here')?.dataset.list");
    check(high <= window, `${high} of ${window}`);
    check(here === String(section) && await within('.matrix.here', '#sections'), `section ${here} of ${section}`);
    check(await run("document.querySelectorAll('#sections .matrix').length") <= 40, 'so many are drawn at once');
  }
  check(/ before these/.test(await textOf('#sections')), 'and it says how many there are more: ' + (await textOf('#sections')).slice(0, 60));
});

await part('20,000 lines are pasted: what is seen is painted, the page stays free, and keys and steps are answered', async () => {
  await open('#example=counter.asl&k=3&threads=2');
  const text = 'global g;\nfn main(t) {\n  p = &g;\n' + '  x = t + t;\n'.repeat(19995) + '  return t;\n}\n';
  await key('e');
  const took = await run(`(async () => { const t = document.getElementById('text'), began = performance.now(), words = ${JSON.stringify(text)}; t.select();
    t.dispatchEvent((${PASTE})(words));
    await new Promise(done => requestAnimationFrame(() => setTimeout(done))); return performance.now() - began; })()`);
  check(await run("document.getElementById('text').value.length") === text.length, 'the text is there');
  const rows = () => run("['paint', 'numbers', 'gutter', 'instructions'].map(id => document.getElementById(id).children.length)");
  check((await rows()).slice(0, 2).every(n => n > 20 && n < 400), 'rows that are drawn: ' + await rows());
  await key('Escape'); await settled();
  check(await run('workbench.bench.refusal === null && workbench.bench.program.code.length') > 19000, 'it compiles: ' + await textOf('#complaint'));
  check((await rows()).every(n => n > 20 && n < 400), 'rows that are drawn: ' + await rows());
  for (const line of [10000, 19990]) {
    await run(`document.getElementById('editor').scrollTop = ${line} * document.querySelector('#numbers .row').offsetHeight`); 
    const numbers = () => run("[...document.querySelectorAll('#numbers .row')].map(row => Number(row.textContent))");
    await until(async () => (await numbers()).includes(line), async () => `line ${line} is drawn: ${(await numbers())[0]} to ${(await numbers()).at(-1)}`);
    await calm();
    const wrong = await run(`(() => { const top = e => Math.round(e.getBoundingClientRect().top), n = [...document.querySelectorAll('#numbers .row')].findIndex(row => row.textContent === '${line}');
      return ['paint', 'gutter', 'instructions'].filter(id => top(document.getElementById(id).children[n]) !== top(document.querySelectorAll('#numbers .row')[n])); })()`);
    check(!wrong.length, 'the columns stand beside one another: ' + wrong);
    const by = await run(`(() => { const row = [...document.querySelectorAll('#numbers .row')].find(row => row.textContent === '${line}');
      return row.getBoundingClientRect().top - document.getElementById('text').getBoundingClientRect().top - ${line - 1} * row.offsetHeight; })()`);
    check(Math.abs(by) < 1, 'and beside the text: ' + by);
  }
  await key('0'); await key('0');
  check(await run('workbench.bench.run.length') === 2 && await within('#paint .row.last', '#editor'), 'a step comes into sight');
  console.log('       pasted and painted after', Math.round(took), 'ms');
});

await part('pictures of the lock tree and of the heap are SVGs that stand alone, with what the panels show', async () => {
  await open('#example=walk.asl&k=3&threads=2&steps=000000000111&at=12');
  for (const name of ['d', 's']) await key(name);
  await settled();
  const folder = mkdtempSync(join(tmpdir(), 'workbench-'));
  for (const [name, box, wanted] of [['walk-locks.svg', '#locks', ['root', 'IX?', 'X?', 'S']], ['walk-heap.svg', '#heap', ['head', 'T0', 'class']]]) {
    const text = await savedBy('Save ' + name), shown = await run(`document.querySelector('${box}').innerText.split(/\\s+/).filter(Boolean).sort().join(' ')`);
    check(!/var\(|style=|<script|href|class=/.test(text), name + ': nothing in it needs the page');
    const words = await run(`[...new DOMParser().parseFromString(${JSON.stringify(text)}, 'image/svg+xml').querySelectorAll('text')].map(e => e.textContent).sort().join(' ')`);
    check(words === shown && wanted.every(word => words.split(' ').includes(word)), `${name}: ${words} / ${shown}`);
    writeFileSync(join(folder, name), text);
    if (name.includes('heap')) check((text.match(/marker-end/g) || []).length === await run("document.querySelectorAll('#heap .pointer').length"), 'its arrows');
  }
  check(await run("document.documentElement.dataset.dark === '1' && !document.body.classList.contains('picturing')"), 'the page is as it was');
  await run("document.getElementById('dialog').close()");
  await browser.open('file://' + join(folder, 'walk-locks.svg'), "document.documentElement.tagName === 'svg'");
  check(await run("getComputedStyle(document.querySelector('svg > rect')).fill") === 'rgb(246, 247, 249)', 'in light colours');
  console.log('       pictures in', folder);
});

await part('a lock tree of many leaves is no higher than the window, and shows where the clash is', async () => {
  const names = Array.from({ length: 60 }, (_, i) => `g${i}`), text = names.map(name => `global ${name};\n`).join('') + 'fn main(t) {\n  one = 1;\n'
    + names.slice(0, 50).map((name, i) => `  p${i} = &${name};\n`).join('') + '  atomic {\n'
    + names.slice(0, 50).map((_, i) => `    *p${i} = one;\n`).join('') + '  }\n  return t;\n}\n';
  await open('#example=counter.asl');
  await load(text, 2, '[...Array(52).fill(0), ...Array(52).fill(1)]');
  const [high, window] = await height('#s-locks');
  check(await run("document.querySelectorAll('#locks tr').length") > 50 && await run("workbench.bench.last.reply") === 'blocked', 'there are many leaves, and a clash: ' + await textOf('#say') + await textOf('#complaint'));
  check(high <= window, `${high} of ${window}`);
  check(await within('#locks .wish.no', '#s-locks .scroll'), 'the clash is in sight');
});
