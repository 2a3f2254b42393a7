// Lists by hand: the panel's lists are those of the program, the verdict is that of the native `check`, and the run goes on under them.
import { readFileSync } from 'node:fs';
import { asl, at, browser, calm, check, key, open, part, run, settled, textOf, until } from './kit.mjs';
import { EXAMPLES, READY } from './paths.mjs';
import { savedBy } from './runs.mjs';

const listsOf = text => text.split(/^list\n/m).slice(1);
const withLists = (text, lists) => text.split(/^list\n/m)[0] + lists.map(list => 'list\n' + list).join('');
const shown = () => run("[...document.querySelectorAll('#own-lists textarea')].map(area => area.value)");
export const writeList = async (section, list) => {
  await run(`(() => { const t = document.querySelector('[data-list="${section}"]'); t.focus(); t.value = ${JSON.stringify(list)};
    t.dispatchEvent(new Event('input')); t.blur(); })()`);
  await settled();
};
const verdict = () => textOf('#own-verdict');
// What the native program says of a source and lists.
function judged(source, text, k) {
  try { asl(['check', '--k', k], source + '\0' + text); return ''; } catch (error) { return String(error.stderr).trim() || 'refused'; }
}

await part('lists by hand are judged as the native check judges them', async () => {
  for (const [name, k] of [['bank.asl', 1], ['walk.asl', 2], ['counter.asl', 0], ['hash.asl', 3]]) {
    const source = readFileSync(EXAMPLES + name, 'utf8'), text = asl(['compile', '--text', '--k', k], source).toString(), lists = listsOf(text);
    await open(`#example=${name}&k=${k}&threads=2`);
    await key('v'); await settled();
    check(JSON.stringify(await shown()) === JSON.stringify(lists), `${name}: the lists are the inferred ones: ${await shown()}`);
    check(/✓ enough/.test(await verdict()), `${name}: which are enough: ${await verdict()}`);
    const s = lists.findLastIndex(list => list), locks = lists[s].trimEnd().split('\n');
    const others = [['', lists.map((list, i) => (i === s ? '' : list))], ['root write\n', lists.map((list, i) => (i === s ? 'root write\n' : list))],
      [locks.slice(1).join('\n'), lists.map((list, i) => (i === s ? locks.slice(1).map(lock => lock + '\n').join('') : list))]];
    for (const [typed, now] of locks.length > 1 ? others : others.slice(0, 2)) {
      await writeList(s, typed);
      const said = judged(source, withLists(text, now), k), [, why, section, lock] = /^asl: (\w+)\((\d+), (.*)\)$/.exec(said) || [];
      check(said ? /✕ not enough/.test(await verdict()) : /✓ enough/.test(await verdict()), `${name} under ${typed}: ${await verdict()}, native ${said}`);
      if (!why) continue;
      check(!(await verdict()).includes(lock), 'the lock is told on request only');
      await run("document.querySelector('[data-keep=\"which\"]').click()"); await calm();
      const told = `Section ${section} ${why === 'Unguarded' ? 'reads by its list' : 'needs'} ${lock}`;
      check((await verdict()).includes(told), `${name} under ${typed}: ${await verdict()} / ${told}`);
    }
    await run("document.querySelectorAll('#own-lists button').forEach(b => b.click())"); await settled();
    check(JSON.stringify(await shown()) === JSON.stringify(lists) && await run('!workbench.bench.ownBuilt'), `${name}: as inferred again`);
  }
});

await part('a list that is half typed stays where it is, and what is wrong is told above it', async () => {
  await browser.size(1366, 768);
  await open('#example=bank.asl&k=1&threads=2');
  await key('v'); await settled();
  const seen = () => run("(({ top, bottom, left }) => [Math.round(left), Math.round(top), bottom <= innerHeight])(document.activeElement.getBoundingClientRect())");
  const [left, top] = await seen();
  await browser.typed('expr r1 re'); await settled();
  const [nowLeft, nowTop, inSight] = await seen();
  check(nowLeft === left && Math.abs(nowTop - top) < 60 && inSight, `from ${left}, ${top} to ${nowLeft}, ${nowTop}`);
  check(/✕ refused: List of section 0, line 2, expr r1 re/.test(await verdict()), await verdict());
  await browser.typed('ad'); await settled();
  check(/✓ enough/.test(await verdict()), 'and then it is judged: ' + await verdict());
  await browser.size(1400, 1000);
});

await part('a run goes on under lists by hand, to the fault of the native program', async () => {
  const source = readFileSync(EXAMPLES + 'counter.asl', 'utf8'), text = asl(['compile', '--text'], source).toString();
  await open('#example=counter.asl&k=3&threads=2&steps=0011&at=4');
  await key('v'); await settled();
  await writeList(0, 'expr r1 read');
  const under = withLists(text, ['expr r1 read\n']);
  check(String(await at()) === '4,4', 'the schedule stays');
  for (const name of ['r', 'Home', 'f']) await key(name);
  const schedule = await run('workbench.bench.run.schedule'), lines = asl(['step', '--threads', 2, ...schedule], under).toString().trim().split('\n');
  const [now] = await at(), fault = lines.findIndex(line => / fault /.test(line));
  check(fault >= 0 && now === fault + 1 && /▲ fault: count is written without a lock; the thread held/.test(await textOf('#say')), `event ${now - 1}, native ${fault}: ${await textOf('#say')}`);
  check(Buffer.from(await run('btoa(String.fromCharCode(...workbench.bench.image))'), 'base64').equals(asl(['asm'], under)), 'the image has these lists');
  check(await run("document.getElementById('comparison').hidden"), 'other k are not compared with them');
  await key('u'); await key('u'); await settled();
  check(await run('!workbench.bench.ownBuilt'), 'undo brings the inferred list back');
  await key('U'); await key('U'); await settled();
  check(await run('workbench.bench.ownBuilt'), 'redo brings that of one\'s own again');
  await writeList(0, 'expr r1 rite');
  check(/List of section 0, line 1/.test(await textOf('#complaint')) && await run("document.querySelector('[data-list=\"0\"]').getAttribute('aria-invalid')") === 'true', 'a list that is none: ' + await textOf('#complaint'));
  await writeList(0, 'list\nroot write');
  check(/is no lock/.test(await textOf('#complaint')), 'a list cannot end another: ' + await textOf('#complaint'));
  await writeList(0, 'expr r1 write');
  check(await run("document.getElementById('complaint').hidden") && /✓ enough/.test(await verdict()), 'and then it is one: ' + await verdict());
  await writeList(0, 'expr r1 read');
  const file = await run('workbench.bench.run.file().then(bytes => Array.from(bytes))'), link = await run("document.querySelector('#share').click()"); await settled();
  await run("document.getElementById('dialog').close()");
  await open(await run('location.hash')); await settled();
  check(await run('workbench.bench.ownBuilt') && await run('workbench.bench.own[0]') === 'expr r1 read', 'a link keeps them: ' + link);
  await open('#example=bank.asl');
  await run(`workbench.loadFile('own.run', new Uint8Array(${JSON.stringify(file)}))`); await settled();
  check(await run("workbench.bench.kind === 'asl' && workbench.bench.title === 'counter.asl' && workbench.bench.own[0] === 'expr r1 read\\n' && workbench.bench.k === 0"), 'a run file has them: ' + await run('workbench.bench.title + JSON.stringify(workbench.bench.own)'));
});

await part('the command lines of Share, under lists by hand, make the run that is shown', async () => {
  const lines = () => run("[...document.querySelectorAll('#dialog .share')].find(e => /command line/.test(e.textContent)).querySelector('pre').textContent.split('\\n')");
  await open('#example=counter.asl&k=3&threads=2&steps=000000&at=6&own=i1ZKrSgoUigyVChKTUxRigUA');
  check(/fault/.test(await textOf('#say')), 'a fault: ' + await textOf('#say'));
  await key('s'); await settled();
  const [step, view, more] = await lines(), [, words] = /^asl (step .*) < counter\.img > counter\.run$/.exec(step) || [];
  check(words && /^asl debug goto 6 view < counter\.run$/.test(view) && !more, `without the source: ${step}; ${view}; ${more}`);
  check(/These lists are by hand: save counter\.img/.test(await textOf('#dialog')), await textOf('#dialog .share:nth-child(2) b'));
  const image = Buffer.from(await run('btoa(String.fromCharCode(...workbench.bench.image))'), 'base64');
  const said = words ? asl(['log'], asl(words.split(' '), image)).toString().trim().split('\n').at(-1) : '';
  check(/^5 0 fault Unprotected 0\.0 write$/.test(said), 'the native program ends as the page: ' + said);
  await run("document.getElementById('dialog').close()");
  await open('#example=counter.asl&k=1&threads=2&steps=0011&at=4'); await key('s'); await settled();
  check((await lines())[0] === 'asl compile --k 1 < counter.asl > counter.img', 'under the inferred lists the source is compiled: ' + (await lines())[0]);
  await run("document.getElementById('dialog').close()");
});

await part('an empty list is another one than none: undo and redo, a reload, a link and a file keep them apart', async () => {
  const there = () => run("JSON.stringify([workbench.bench.own.map(list => list ?? null), workbench.bench.asm.split(/^list\\n/m).slice(1).map(list => list.length > 0), workbench.bench.position])");
  const inferred = '[[],[true,true,true],2]', emptied = '[[null,""],[true,false,true],2]', count = readFileSync(EXAMPLES + 'bank.asl', 'utf8').match(/atomic/g).length;
  check(count === 3, 'sections: ' + count);
  await open('#example=bank.asl&k=0&threads=2&steps=0011&at=2');
  await key('v'); await settled();
  for (const [section, wanted] of [[0, '[[""],[false,true,true],2]'], [1, emptied]]) {
    await writeList(section, '');
    check(await there() === wanted, `list ${section} is emptied: ` + await there());
    await key('u'); await settled();
    check(await there() === inferred, 'undo: ' + await there());
    await key('U'); await settled();
    check(await there() === wanted, 'redo: ' + await there());
    if (section === 0) { await key('u'); await settled(); }
  }
  await run('window.isOld = true, setTimeout(() => location.reload()), 1');
  await until(`!window.isOld && ${READY}`, 'the page is loaded anew'); await calm();
  check(await there() === emptied, 'a reload at once: ' + await there());
  const inWords = () => run("[...document.querySelectorAll('#own-lists .own-list > div:first-child')].map(e => /as inferred/.test(e.textContent) && !e.querySelector('button'))");
  check(String(await inWords()) === 'true,false,true', 'the other lists are as inferred: ' + await inWords());
  await key('v'); check(await run('document.activeElement.dataset.list') === '1', 'v goes into it: ' + await run('document.activeElement.dataset.list')); await key('Escape');
  await key('s'); const file = await savedBy('Save bank.workbench'), link = await textOf('#dialog .share pre');
  check(/\nlist 1\nsteps 0\*2 1\*2\nat 2\n/.test(file), 'the file: ' + file.slice(0, 120));
  await open('#' + link.split('#')[1]); check(await there() === emptied, 'a link: ' + await there());
  await open(); await run(`workbench.loadFile('bank.workbench', new TextEncoder().encode(${JSON.stringify(file)}))`); await settled();
  check(await there() === emptied, 'a file: ' + await there());
});

await part('of several lists one is by hand: what is said of each, one undo for a row of letters, and the panel that closes', async () => {
  const code = () => textOf('#own-all pre, #own-all code'), bank = readFileSync(EXAMPLES + 'bank.asl', 'utf8'), inferred = listsOf(asl(['compile', '--text', '--k', 0], bank).toString());
  const words = s => run(`[...document.querySelectorAll('#own-lists .own-list')[${s}].querySelectorAll('li')].map(e => e.textContent).filter(Boolean).join()`);
  await open('#example=bank.asl&k=1&threads=2'); await key('v'); await settled();
  check(/\bfrom\b/.test(await words(1)) && !/\bfrom\b/.test(await words(0)), `locks in the names of their function: ${await words(0)} / ${await words(1)}`);
  await open('#example=bank.asl&k=0&threads=2'); await key('v'); await settled();
  await writeList(0, ''); await until("document.querySelector('[data-keep=which]')"); await run("document.querySelector('[data-keep=which]').click()"); await calm();
  check(/Section 0 needs/.test(await verdict()), await verdict());
  await writeList(2, ''); await until("document.querySelector('[data-keep=which]')"); check(!/needs/.test(await verdict()) && /which lock/.test(await verdict()), 'of other lists it is told on request again: ' + await verdict());
  await writeList(2, 'root write\n'); await run("document.querySelector('[data-list=\"0\"]').focus()");
  await browser.typed('root write'); await settled();
  const lists = ['root write\n', inferred[1], 'root write\n'], under = withLists(asl(['compile', '--text', '--k', 0], bank).toString(), lists);
  check(await run('workbench.bench.asm') === asl(['dis'], asl(['asm'], under)).toString() && (await code()).includes('list\nroot write') && (await code()).split('list\n').length === 4, 'the whole assembly text has them: ' + (await code()).slice(-80));
  await run("document.querySelector('[data-keep=inferred-2]').click()"); await settled();
  check(await run('JSON.stringify(workbench.bench.own)') === '["root write",null,null]', 'one list is as inferred: ' + await run('JSON.stringify(workbench.bench.own)'));
  const own = () => run('JSON.stringify(workbench.bench.own)'), seen = [];
  await key('Escape'); for (const name of ['u', 'u', 'U']) { await key(name); await settled(); seen.push(await own()); }
  check(String(seen) === '["root write",null,"root write\\n"],[],["root write",null,"root write\\n"]', 'what is typed in a row is one undo: ' + seen.join(' / '));
  await run("document.getElementById('own-open').click()"); await calm();
  check(await run("document.getElementById('s-own').hidden && workbench.bench.ownBuilt"), 'the panel closes, and the lists stay');
  await run("document.getElementById('own-open').click()"); await calm();
  check(await run("!document.getElementById('s-own').hidden"), 'and opens');
});
