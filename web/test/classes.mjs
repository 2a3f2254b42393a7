// Why one class: what the page says is what the native program says, and a line of it marks that line of the program.
import { readFileSync } from 'node:fs';
import { asl, check, key, open, part, run, settled, textOf } from './kit.mjs';
import { EXAMPLES } from './paths.mjs';

// What the panel shows, row by row; and what the native program says of each class, in the same way.
const rows = () => run("[...document.querySelectorAll('#class-rows li')].map(e => e.textContent.replace(/ +/g, ' ').trim())");
const native = (source, ...words) => asl(['explain', '--classes', ...words], source).toString().split(/^(?=class \d+: )/m)
  .map(part => part.replaceAll(' (--all tells them)', '').split('\n').map(row => row.replace(/ +/g, ' ').replaceAll('`', '').trim()).filter(Boolean));
const same = (a, b) => JSON.stringify(a) === JSON.stringify(b);
// The lines that are marked: their numbers, and their texts.
const marked = () => run("['numbers', 'paint'].map(id => [...document.querySelectorAll('#' + id + ' .row.pointed')].map(e => e.textContent).join())");
const isOpen = () => run("!document.getElementById('s-classes').hidden");
const MANY = Array.from({ length: 12 }, (_, i) => `global g${i};\n`).join('') + 'fn main(t) {\n'
  + Array.from({ length: 12 }, (_, i) => `  a = &g${i};\n`).join('') + '  atomic { *a = t; }\n  return t;\n}\n';

await part('why one class: each class, by key, is told as the native program tells it', async () => {
  for (const name of ['bank.asl', 'tree.asl', 'hash.asl', 'walk.asl']) {
    const told = native(readFileSync(EXAMPLES + name, 'utf8'));
    await open(`#example=${name}&k=0&threads=2`);
    for (let n = 0; n < told.length; n++) {
      await key('X'); await settled();
      const number = Number((await textOf('#class-name')).slice(6));
      check(same(await rows(), told[number]), `${name}, class ${number}: ${(await rows()).slice(0, 3)} / ${told[number].slice(0, 3)}`);
      told[number].seen = true;
    }
    check(told.every(({ seen }) => seen), name + ': X goes through all classes');
    check(!/--/.test(await textOf('#class-rows')), name + ': no advice for a command line');
  }
});

await part('why one class: a line of a chain marks that line in the program, by key and by click', async () => {
  const lines = readFileSync(EXAMPLES + 'bank.asl', 'utf8').split('\n');
  await open('#example=bank.asl&k=0&threads=2');
  await run("(e => { e.focus(); e.click(); })(document.querySelector('#sections [data-keep^=class-list]'))"); await settled();
  check(await isOpen() && await run("document.activeElement.matches('#class-rows button')"), 'a button beside the list opens it, with the focus on a line');
  for (let n = 0; n < 2; n++) { await key('X'); await settled(); if ((await textOf('#class-name')) === 'class 0') break; }
  for (const how of ['ArrowDown', 'ArrowDown', 'click']) {
    await run("document.getElementById('editor').scrollTop = 0"); await settled();
    if (how === 'click') await run("[...document.querySelectorAll('#class-rows .link')].at(-1).click()"); else await key(how);
    await settled();
    const at = await run("document.querySelector('#class-rows [aria-current]').textContent"), line = Number(/^line (\d+)/.exec(at)[1]);
    const [number, text] = await marked();
    check(Number(number) === line && text === lines[line - 1], `${how}: ${at.slice(0, 20)} marks ${number}: ${text}`);
    const seen = await run(`(e => { const a = e.getBoundingClientRect(), b = document.getElementById('editor').getBoundingClientRect(); return a.top >= b.top - 1 && a.bottom <= b.bottom + 1; })(document.querySelector('#numbers .pointed'))`);
    check(seen, `${how}: line ${line} is in sight`);
  }
  await key('ArrowUp'); await key('Escape'); await settled();
  check(!await isOpen() && String(await marked()) === ',', 'Escape closes it, and no line is marked');
  check(await run("document.activeElement.matches('#sections [data-keep^=class-list]')"), 'and the focus is where it was opened');
  await run("document.querySelector('#locks [data-keep=class-tree-1]').click()"); await settled();
  check(await textOf('#class-name') === 'class 1', 'beside a class of the lock tree: ' + await textOf('#class-name'));
  await run("document.getElementById('class-close').click()"); await settled();
  await open('#example=bank.asl&k=0&threads=2');
  for (const name of ['0', 'I', '2', '2', 'Enter', '1', 'I', 'Enter', '0', '1']) await key(name);
  await settled();
  await run("document.querySelector('#say [data-keep^=class-asks]')?.click()"); await settled();
  check(await isOpen() && (await textOf('#say')).includes(' at ' + await textOf('#class-name')), 'from the sentence of a blocked step: ' + await textOf('#say'));
  await key('Escape'); await key('X'); await settled();
  check((await textOf('#say')).includes(' at ' + await textOf('#class-name')), 'X opens the class where it is blocked: ' + await textOf('#class-name'));
  await key('Escape'); await settled();
  check(!await isOpen(), 'its button closes it');
});

await part('why one class: it begins where something is joined, and says of one member that there is nothing to join', async () => {
  await open('#example=bank.asl&k=0&threads=2'); await key('X'); await settled();
  check(await textOf('#class-name') === 'class 0' && (await rows()).length > 5, 'where no lock is shown: ' + await rows());
  await open('#example=bank.asl&k=0&threads=2&steps=' + '0'.repeat(57) + '1'.repeat(52) + '01&at=111'); await key('X'); await settled();
  const seen = `(e => { const a = e?.getBoundingClientRect(), b = document.getElementById('editor').getBoundingClientRect(); return Boolean(a && a.top >= b.top - 1 && a.bottom <= b.bottom + 1); })(document.querySelector('#numbers .pointed'))`;
  check((await marked())[0] === '12' && await run(seen) && await run("document.querySelector('#class-rows code').textContent") === 'made = new 1', 'its line is marked, and in sight; its statement is code: ' + await marked());
  check(await textOf('#class-name') === 'class 1' && /All its objects are made at this line; there is nothing to join\./.test(await textOf('#class-rows')), 'the lock that is shown: ' + await textOf('#class-rows'));
  await key('X'); await settled();
  check(await textOf('#class-name') === 'class 0' && !/nothing to join/.test(await textOf('#class-rows')), 'then the other: ' + await textOf('#class-rows'));
  await open('#example=counter.asl&k=0&threads=2'); await key('X'); await settled();
  check(/It has this one member; there is nothing to join\./.test(await textOf('#class-rows')), 'a global alone: ' + await textOf('#class-rows'));
});

await part('why one class: more members on request, another text, an assembly text', async () => {
  await open();
  await run(`workbench.bench.load({ text: ${JSON.stringify(MANY)}, kind: 'asl', title: 'many.asl', k: 3, threads: 1, lesson: null })`); await settled();
  await key('X'); await settled();
  check(same(await rows(), native(MANY)[0]) && /and 5 more$/.test((await rows())[0]), 'seven of twelve: ' + (await rows())[0]);
  await run("document.querySelector('[data-keep=class-all]').click()"); await settled();
  check(same(await rows(), native(MANY, '--all')[0]) && /g11/.test((await rows())[0]), 'all: ' + (await rows())[0]);
  await run("document.querySelector('#class-rows .link-of').click()"); await settled();
  check((await marked())[0] === '14', 'a line is marked: ' + await marked());
  const other = MANY.replace('  a = &g11;\n', '');
  await run(`workbench.bench.type(${JSON.stringify(other)})`); await settled();
  check(same(await rows(), native(other, '--all')[0]) && String(await marked()) === ',', 'another text is told anew: ' + (await rows())[0]);
  await open('#example=counter.asm&threads=2'); await key('X'); await settled();
  check(/is found in a source/.test(await textOf('#class-rows')), await textOf('#class-rows'));
});
