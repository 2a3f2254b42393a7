// Notes: where they go as the text changes, which line one is meant for, and undo.
import { browser, calm, check, key, open, part, run, settled, textOf } from './kit.mjs';
import { type } from './keeping.mjs';

const TEXT = 'global g;\nfn main(t) {\n  p = &g;\n  x = t + t;\n  y = x + t;\n  return y;\n}\n';
const notes = () => run('JSON.stringify(workbench.bench.notes)');
const begin = async (all = {}) => { await open(); await run(`workbench.bench.load({ text: ${JSON.stringify(TEXT)}, kind: 'asl', title: 'n.asl', notes: ${JSON.stringify(all)} }).then(() => 1)`); await settled(); };

await part('notes: they stay with their lines, and go with lines that are gone; undo brings them back', async () => {
  await begin({ 3: 'sum', 4: 'again' });
  await type(TEXT.replace('x = t + t', 'x = t * t'));
  check(await notes() === '{"3":"sum","4":"again"}', 'a line that is changed keeps its note: ' + await notes());
  await type(TEXT.replace('x = t + t', 'x = t * t').replace('  y =', '  x = t * t;\n  y ='));
  check(await notes() === '{"3":"sum","5":"again"}', 'a line before one moves it: ' + await notes());
  await type(TEXT.replace('x = t + t', 'x = t * t'));
  check(await notes() === '{"3":"sum","4":"again"}', 'and back: ' + await notes());
  await type(TEXT.replace('  x = t + t;\n  y = x + t;\n', ''));
  check(await notes() === '{}', 'those of lines that are gone go with them: ' + await notes());
  await key('u'); await settled();
  check(await notes() === '{"3":"sum","4":"again"}', 'undo: ' + await notes());
  await run("document.getElementById('text').blur()");
  await run("workbench.bench.setNotes({ 3: 'other' })"); await calm();
  await key('0'); await key('u'); await settled();
  check(await notes() === '{"3":"sum","4":"again"}', 'undo of a note, where a step was made since: ' + await notes());
  await key('U'); await settled(); check(await notes() === '{"3":"other"}', 'redo: ' + await notes());
});

await part('notes: the line of the cursor, the last line, a note of 200 letters, one that is changed and one that is removed', async () => {
  const write = async (line, words) => {
    if (line !== null) await run(`document.getElementById('note-number').value = ${line}`);
    await run(`document.getElementById('note-words').value = ${JSON.stringify(words)}`); await run("document.getElementById('note-take').click()"); await calm();
  };
  await begin();
  await run(`(t => { t.focus(); t.setSelectionRange(${TEXT.indexOf('x = t')}, ${TEXT.indexOf('x = t')}); t.blur(); })(document.getElementById('text'))`);
  await key('z'); check(await run("document.getElementById('note-number').value") === '4', 'of the cursor: line ' + await run("document.getElementById('note-number').value"));
  await write(null, 'y'.repeat(300));
  check(await run('workbench.bench.notes[3]') === 'y'.repeat(200), 'of 200 letters: ' + (await notes()).length);
  await key('z'); await write(99, 'the end');
  check(await run('workbench.bench.notes[7]') === 'the end', 'the last line is the greatest: ' + (await notes()).slice(-40));
  await run("document.querySelectorAll('#notes .link')[1].click()"); await calm();
  check(await run("document.getElementById('note-number').value + document.getElementById('note-words').value") === '8the end', 'its button opens it: ' + await textOf('#notes'));
  await write(null, ''); check(await run('Object.keys(workbench.bench.notes).join()') === '3', 'without words it is removed: ' + (await notes()).slice(0, 40));
  await browser.size(1400, 1000);
});
