// What the page says in words of its own: no advice for a command line, each clash of a blocked try, and the end of all threads.
import { readFileSync } from 'node:fs';
import { asl, calm, check, key, open, part, run, settled, textOf, until } from './kit.mjs';
import { ROOT } from './paths.mjs';

await part('a blocked try names each node where there is a clash, the innermost first', async () => {
  await open('#example=walk.asl&k=3&threads=2&steps=000000000111&at=12'); await settled();
  const said = (await textOf('#say')).replace(/\s+/g, ' ');
  check(/it asks X \(write\) at leaf 0\.0 \(head\) why; T0 holds S \(read\) there since event 8; at class 1, too: IX against S\. /.test(said), said);
  check(/step any thread to go on/.test(said), 'it may go on: ' + said);
});

await part('where all threads have ended, nothing is said of going on', async () => {
  await open('#example=counter.asl&k=3&threads=2');
  await key('r'); await settled();
  const said = await textOf('#say');
  check(/All threads have ended\./.test(said) && !/go on/.test(said), said);
});

await part('no advice for a command line: reasons have a button for all, and hints name what the page has', async () => {
  const text = readFileSync(ROOT + 'tests/explanations/many.asl', 'utf8');
  await open();
  await run(`workbench.bench.load({ text: ${JSON.stringify(text)}, kind: 'asl', title: 'many.asl', k: 3, threads: 2 })`); await settled();
  await until(`document.querySelector('[data-list="1"] [data-keep^=why]')`); await calm();
  await run(`document.querySelector('[data-list="1"] [data-keep^=why]').click()`); await settled();
  const few = await textOf('#dialog-body .why');
  check(/contains \d+ more locks?\n/.test(few) && !/--/.test(few), 'few of them: ' + few.slice(0, 300));
  await run("document.getElementById('why-all').click()"); await settled();
  const all = await textOf('#dialog-body .why');
  check(!/contains \d+ more/.test(all) && all.length > few.length && asl(['explain', '--all', '--k', 3], text).toString().includes(all), 'all of them: ' + all.length);
  await run("document.getElementById('dialog').close()"); await calm();
});
