// What the text does not say: the page shows what the native `lists` warns of, beside the lines and below the program.
import { readFileSync, readdirSync } from 'node:fs';
import { asl, check, key, open, part, run, settled, textOf } from './kit.mjs';
import { EXAMPLES } from './paths.mjs';

const TEXT = `global head;
global other;
fn lost(p) {
  atomic { x = *p; }
  return x;
}
fn main(t) {
  p = &head;
  o = &other;
  n = new 2;
  atomic { q = *p; z = *q; *p = n; }
  atomic { w = *o; y = *w; *w = y; }
  return t;
}
`;
const native = source => JSON.parse(asl(['lists'], source).toString()).warnings.map(({ warning, line }) => `${line} ${warning}`);
// The lines of the list, and of the marks behind the lines, once each.
const listed = () => run("[...document.querySelectorAll('#warnings li')].map(e => e.querySelector('button').textContent.slice(5) + (/does not reach/.test(e.textContent) ? ' unreached' : / no list covers it/.test(e.textContent) ? ' no class' : ' ?'))");
const beside = () => run("[...document.querySelectorAll('#paint .row')].flatMap((e, i) => (e.querySelector('.warning') ? [i + 1] : []))");
const load = async (text, words = {}) => {
  await run(`workbench.bench.load(${JSON.stringify({ text, kind: 'asl', title: 'said.asl', k: 3, threads: 2, lesson: null, ...words })})`);
  await settled(); await settled();
};
const lines = said => String([...new Set(said.map(words => Number(words.split(' ')[0])))]);

await part('warnings are those of the native lists, beside their lines and below the program', async () => {
  await open();
  for (const text of [TEXT, TEXT.replace('*w = y;', ''), TEXT.replace('p = &head;', 'p = &head; z = lost(p);'), ...['bank.asl', 'tree.asl'].map(name => readFileSync(EXAMPLES + name, 'utf8'))]) {
    await load(text);
    const wanted = native(text);
    check(String(await listed()) === String(wanted), `${await listed()} / ${wanted}`);
    check(String(await beside()) === lines(wanted), `beside ${await beside()} / ${wanted}`);
    check(await run("document.getElementById('warnings').hidden") === !wanted.length, 'the list is there where it says something');
  }
  check(native(TEXT).length === 3, 'there are some: ' + native(TEXT));
  for (const name of readdirSync(EXAMPLES).filter(n => n.endsWith('.asl'))) {
    await open('#example=' + name); await settled();
    check(String(await listed()) === String(native(readFileSync(EXAMPLES + name))), name + ': ' + await listed());
  }
});

await part('warnings: a click marks the line, another text takes them away, another k and undo keep them', async () => {
  await open(); await load(TEXT);
  await run("document.querySelector('#warnings button').click()"); await settled();
  check(await textOf('#numbers .pointed') === '3', 'the line is marked: ' + await textOf('#numbers .pointed'));
  await key('k'); await settled();
  check(String(await listed()) === String(native(TEXT)), 'at another k: ' + await listed());
  await run(`workbench.bench.type(${JSON.stringify(TEXT.replace('return t;', 'return t'))})`); await settled();
  check(await run("document.getElementById('warnings').hidden") && String(await beside()) === '', 'of a text that is refused there are none');
  const other = '\n' + TEXT;
  await run(`workbench.bench.type(${JSON.stringify(other)})`); await settled(); await settled();
  check(String(await listed()) === String(native(other)) && lines(native(other)) === '4,13', 'a line further down: ' + await listed());
  await key('u'); await settled(); await settled();
  check(String(await listed()) === String(native(TEXT)), 'after undo: ' + await listed());
  await open('#example=counter.asm&threads=2'); await settled();
  check(await run("document.getElementById('warnings').hidden"), 'of an assembly text there are none');
});
