// What the toolchain makes of the source, as files: the C program, and the lists as one JSON document.
import { readFileSync } from 'node:fs';
import { asl, check, key, open, part, run, settled, textOf } from './kit.mjs';
import { EXAMPLES } from './paths.mjs';
import { BUTTON, savedWhen } from './runs.mjs';

const closed = async () => { await run("document.getElementById('dialog').close()"); await settled(); };
const bank = readFileSync(EXAMPLES + 'bank.asl', 'utf8');

await part('the C program and the lists are saved, by key and by button, as the native program prints them', async () => {
  await open('#example=bank.asl&k=0&threads=2'); await settled();
  const had = await run("workbench.hasCommand('lists')");
  const wanted = { C: ['bank.c', ['c', '--k', 0]], ...(had ? { J: ['bank.json', ['lists', '--k', 0]] } : {}) };
  for (const [name, [file, words]] of Object.entries(wanted)) {
    for (const k of [0, 'auto']) {
      const native = asl([...words.slice(0, -1), k], bank).toString();
      await key(name); await settled();
      check(await run("document.activeElement.textContent") === `Save ${file}, k 0`, `${name}: the k of the page is at hand: ${await textOf('#dialog-body')}`);
      const byKey = await savedWhen(k === 0 ? 'document.activeElement.click()' : BUTTON(`Save ${file}, k auto`));
      check(byKey?.name === file && byKey.text === native, `${file} by key, k ${k}: ${byKey?.name}`);
      check(await run("!document.getElementById('dialog').open"), 'and the dialog is closed');
      await key('s'); await settled();
      const byButton = await savedWhen(BUTTON(`Save ${file}, k ${k}`));
      check(byButton?.name === file && byButton.text === native, `${file} by button, k ${k}: ${byButton?.name}`);
      await closed();
    }
    const auto = asl([...words.slice(0, -1), 'auto'], bank).toString();
    check(auto !== asl([...words.slice(0, -1), 0], bank).toString(), file + ': another k makes another file');
  }
  await key('s'); await settled();
  check((await textOf('.files')).includes('Save bank.json, k auto') === had, 'a button for what the module makes alone: ' + await textOf('.files'));
  await run("document.getElementById('dialog').close()"); await settled();
  if (!had) { await key('J'); check(/makes no document/.test(await textOf('#note')), await textOf('#note')); }
  console.log(`       the module ${had ? 'has' : 'does not have'} the command lists`);
});

await part('no C program of an assembly text, nor of a text that is refused', async () => {
  await open('#example=counter.asm&threads=2'); await settled();
  await key('C');
  check(/only of a source/.test(await textOf('#note')), await textOf('#note'));
  await key('s'); await settled();
  check(!/\.c\b|\.json/.test(await textOf('.files')), 'no button: ' + await textOf('.files'));
  await run("document.getElementById('dialog').close()"); await settled();
  await open('#example=bank.asl&k=1&threads=2');
  await run("workbench.bench.type('fn main(t) { x = ; }')"); await settled();
  await key('C'); await settled();
  check(/does not compile/.test(await textOf('#note')), await textOf('#note'));
});
