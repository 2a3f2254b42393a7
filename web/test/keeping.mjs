// Nothing that a person makes is lost: undo brings back texts, runs, threads and a lesson's progress, and a reload keeps them.
import { readFileSync } from 'node:fs';
import { at, browser, calm, check, key, open, part, run, settled, textOf, until } from './kit.mjs';
import { EXAMPLES, READY } from './paths.mjs';
import { comes } from './socket.mjs';

export const type = async text => {
  await run(`(() => { const t = document.getElementById('text'); t.focus(); t.value = ${JSON.stringify(text)};
    t.dispatchEvent(new Event('input')); t.blur(); })()`);
  await settled();
};
export const choose = async name => {
  await run(`(() => { const e = document.getElementById('example'); e.value = '${name}'; e.dispatchEvent(new Event('change')); e.blur(); })()`);
  await calm();
};
// All that a person has made here.
const MADE = `JSON.stringify((({ text, kind, title, k, threads, schedule, position, lesson }) =>
  ({ text, kind, title, k, threads, schedule, position, lesson: lesson && { number: lesson.number, done: lesson.done } }))(workbench.bench.moment()))`;
const COUNTER = readFileSync(EXAMPLES + 'counter.asl', 'utf8');

await part('undo brings back a text, a run, threads and a lesson, and redo what came after', async () => {
  await open('#example=counter.asl&k=3&threads=2&steps=0011&at=3');
  const moments = [await run(MADE)];
  const then = async work => { await work(); await calm(); moments.push(await run(MADE)); };
  await then(() => type(COUNTER.replace('x + one', 'one + x')));
  await choose('bank.asl');
  await then(async () => { for (const name of ['n', 't', 'k']) await key(name); });
  await then(async () => { await run("location.hash = '#lesson=1'"); await until("document.getElementById('lesson-title').textContent.startsWith('Lesson 1:')"); });
  for (const name of ['0', '0', '1', '1']) await key(name);
  moments.push(await run(MADE));
  check(JSON.parse(moments.at(-1)).lesson.done === 2, 'the lesson has begun: ' + moments.at(-1));
  await then(() => choose('lost.asl'));
  await then(() => run("document.getElementById('lesson-close').click()"));
  const seen = new Set();
  for (let i = 0; i < 12 && await run('workbench.bench.past.canGoBack'); i++) { await key('u'); seen.add(await run(MADE)); }
  const missed = moments.slice(0, -1).filter(moment => !seen.has(moment));
  check(missed.length === 1 && JSON.parse(missed[0]).lesson?.done === 0, 'undo brings back all but the start of the lesson: ' + missed);
  check(await run(MADE) === moments[0], 'the first moment is the last to which undo goes');
  for (let i = 0; i < 12 && await run('workbench.bench.past.canGoForward'); i++) await key('U');
  check(await run(MADE) === moments.at(-1), 'redo brings back the last: ' + await run(MADE));
});

await part('undo goes back before each go of several steps, one at a time', async () => {
  const there = () => run('[workbench.bench.position, workbench.bench.run.length, workbench.bench.threads].join()');
  await open('#example=bank.asl&k=3&threads=2&steps=0011&at=4');
  await run("document.getElementById('most').value = 20");
  const seen = [await there()];
  for (const name of ['g', 't', 'R', 'r', '0', 'r']) { await key(name); await settled(); seen.push(await there()); }
  check(new Set(seen).size === 7, 'each goes further: ' + seen.join(' '));
  for (const i of [5, 3, 2, 1, 0]) {
    await key('u'); await settled();
    check(await there() === seen[i], `undo: ${await there()}, not ${seen[i]}`);
  }
  check(await run("document.getElementById('undo').disabled"), 'there is nothing more to undo');
  for (let i = 0; i < 5; i++) { await key('U'); await settled(); }
  check(await there() === seen.at(-1), `redo brings all again: ${await there()}, not ${seen.at(-1)}`);
});

await part('a program that is typed without blanks stands as one writes it: a line after { goes deeper, and } back', async () => {
  const rows = ['global g;', '', 'fn main(t) {', 'p = &g;', 'if t {', 'atomic {', '*p = t;', '}', '} else {', 'x = t;', '}', '', 'return t;', '}', ''];
  const as = ['global g;', '', 'fn main(t) {', '  p = &g;', '  if t {', '    atomic {', '      *p = t;', '    }', '  } else {', '    x = t;', '  }', '  ', '  return t;', '}', ''];
  await key('N'); await settled(); await key('e');
  await run("document.getElementById('text').setSelectionRange(0, 1e6)");
  await browser.typed(rows.join('\n')); await key('Escape'); await settled();
  check(await run('workbench.bench.text') === as.join('\n'), JSON.stringify(await run('workbench.bench.text')));
  await until('workbench.bench.run && !workbench.bench.refusal', 'it is compiled');
  await key('u'); check(await run('workbench.bench.text') === 'fn main(t) {\n  return t;\n}\n', 'it is one undo');
});

await part('fewer threads drop no step for good, and a text that is typed is one undo', async () => {
  await open('#example=counter.asl&k=3&threads=3&steps=001122&at=6');
  await key('T'); check(String(await at()) === '4,4', 'fewer threads');
  await key('u'); check(String(await at()) === '6,6' && await run('workbench.bench.threads') === 3, 'the steps are there again');
  await key('e'); await browser.typed('abc'); await settled(); await browser.typed('de'); await key('Escape');
  await settled();
  check(await run("workbench.bench.refusal !== null && /abcde/.test(workbench.bench.text)"), 'a text is typed that does not compile');
  await key('u');
  check(await run('workbench.bench.text') === COUNTER && await run('workbench.bench.refusal === null'), 'one undo brings the text back');
  check(String(await at()) === '6,6', 'with its run');
  await key('U'); check(/abcde/.test(await run('workbench.bench.text')), 'redo brings what was typed');
});

// The page writes its address 250 ms after it was drawn; that takes a while where a text is packed, and ends with what was left behind for a
// reload being forgotten.
const LEFT = "sessionStorage.getItem('asl-workbench-left')", leave = "sessionStorage.setItem('asl-workbench-left', '{}')";
async function addressed() {
  await run(`${leave}, workbench.bench.changed('position')`);
  await until('!' + LEFT, 'the address is written');
}
// Opens the address that the page has written by itself, as a reload does; the store of the tab is kept. (Where it was written already,
// nothing is forgotten any more.)
async function reload() {
  await run(`${leave}, new Promise(done => setTimeout(done, 300))`);
  await comes(() => run('!' + LEFT), 5000);
  await open(await run('location.hash'));
}

await part('a reload keeps text, run, threads, name, notes and lesson', async () => {
  await open('#lesson=3');
  for (const name of ['0', '1', '0', 't', 'ArrowLeft']) await key(name);
  await type((await run('workbench.bench.text')).replace('hundred = 100', 'hundred = 250'));
  await run("workbench.bench.setNotes({ 7: 'opens once' })"); await calm();
  const before = await run(MADE);
  check(/"lesson":\{"number":2/.test(before) && /250/.test(before), 'made: ' + before.slice(-120));
  await reload();
  check(await run(MADE) === before, 'after a reload: ' + (await run(MADE)).slice(-120));
  check(await run('JSON.stringify(workbench.bench.notes)') === '{"7":"opens once"}' && /opens once/.test(await textOf('#paint')), 'the note is there');
  check(await textOf('#lesson-title') !== '', 'the lesson is there');
  await until(async () => /kept in the address/.test(await textOf('#kept')), async () => 'a line says where it is kept: ' + await textOf('#kept'));
});

// Loads the page anew at once, with what the browser keeps of it.
async function reloadAtOnce() {
  await run('window.isOld = true');
  await run("setTimeout(() => location.reload()); 1");
  await until(`!window.isOld && ${READY}`, 'the page is loaded anew');
  await calm();
}
await part('a reload right after a step, a text or a choice loses nothing', async () => {
  await open('#example=bank.asl&k=0&threads=2'); await addressed();
  for (const name of ['0', '0', '0', '1', 'ArrowLeft']) await browser.strike(name);
  await calm();
  const before = await run(MADE);
  await reloadAtOnce();
  check(/"schedule":\[0,0,0,1\],"position":3/.test(before) && await run(MADE) === before, `${before.slice(-80)} / ${(await run(MADE)).slice(-80)}`);
  await open('#lesson=2'); await addressed();
  for (const name of '000001') await browser.strike(name);
  await calm();
  const inLesson = await run(MADE);
  await reloadAtOnce();
  check(/"done":1/.test(inLesson) && await run(MADE) === inLesson, `${inLesson.slice(-80)} / ${(await run(MADE)).slice(-80)}`);
  check(await run("document.querySelectorAll('#s-lesson li.done').length") === 1, 'the lesson goes on');
  await type(COUNTER.replace('x + one', 'one + x'));
  await reloadAtOnce();
  check(/one \+ x/.test(await run('workbench.bench.text')), 'a text: ' + await run('workbench.bench.text'));
  // A page that is loaded anew goes on for a while, and may write its address then. Chromium has the address from before that, and no state.
  const address = await run('location.hash');
  await type(COUNTER.replace('x + one', 'x + x'));
  await run(`history.replaceState(null, '', ${JSON.stringify(address)})`);
  await reloadAtOnce();
  check(/x \+ x/.test(await run('workbench.bench.text')), 'a text whose address is written meanwhile: ' + await run('workbench.bench.text'));
  await addressed();
  await open('#example=bank.asl&k=0&threads=2');
  check(String(await at()) === '0,0', 'but a link is opened as it says: ' + await at());
});

await part('what is left behind while an older address is packed is not forgotten', async () => {
  await open('#example=counter.asl&k=3&threads=2'); await addressed();
  await run(`(() => { const Stream = CompressionStream;
    window.CompressionStream = class extends Stream { constructor(...words) { super(...words); dispatchEvent(new Event('pagehide')); } }; })()`);
  await type(COUNTER.replace('x + one', 'one + x'));
  await until("location.hash.startsWith('#asl=')", () => run('location.hash'));
  const left = await run(LEFT);
  check(/one \+ x/.test(left), 'what is left: ' + left);
});

await part('what is too long for the address is kept by the browser, and a line says so', async () => {
  await open('#example=counter.asl&k=3&threads=2');
  let seed = 1;
  const names = Array.from({ length: 6000 }, () => 'g' + (seed = (seed * 48271) % 2147483647).toString(36)), text = [...new Set(names)].slice(0, 900).map(name => `global ${name};\n`).join('')
    + COUNTER + names.map(name => `fn ${name}x(a) { return a; }\n`).slice(0, 200).join('') + ' '.repeat(10) + names.join(' ');
  await type(text);
  await reload();
  check(/^#kept=\w+$/.test(await run('location.hash')), 'the address names it: ' + (await run('location.hash')).slice(0, 40));
  check(await run('workbench.bench.text') === text, 'the text is there');
  await until(async () => /by the browser/.test(await textOf('#kept')), async () => 'a line says so: ' + await textOf('#kept'));
});

await part('New, a name, and notes by keys; files get the name', async () => {
  await open('#example=counter.asl&k=3&threads=2&steps=0011&at=4');
  await key('N'); await settled();
  check(await run('[workbench.bench.title, workbench.bench.kind, workbench.bench.refusal].join()') === 'untitled.asl,asl,' && await run("document.activeElement.id") === 'text', 'a new program');
  await key('Escape'); await key('u');
  check(String(await at()) === '4,4' && await run("workbench.bench.title") === 'counter.asl', 'undo brings the old one back');
  await run("document.getElementById('rename').click()");
  await run("document.getElementById('asked').value = 'my / lab'"); await key('Enter'); await calm();
  check(await run("workbench.bench.title") === 'my lab.asl', 'the name: ' + await run('workbench.bench.title'));
  await key('u'); await settled();
  check(await run("workbench.bench.title") === 'counter.asl' && String(await at()) === '4,4', 'undo brings the name back');
  await key('U'); await settled();
  check(await run("workbench.bench.title") === 'my lab.asl' && String(await at()) === '4,4', 'redo brings the new one');
  await key('s'); await settled();
  const files = await run("[...document.querySelectorAll('.files button')].map(e => e.textContent).join()");
  const derived = await run("workbench.hasCommand('lists')") ? ['.c, k 3', '.c, k auto', '.json, k 3', '.json, k auto'] : ['.c, k 3', '.c, k auto'];
  const ends = ['.workbench', '.run', '.svg', '-locks.svg', '-heap.svg', '.img', ...derived, '.asl'];
  check(files === ends.map(end => 'Save my lab' + end).join(), 'files: ' + files);
  await run("document.getElementById('dialog').close()");
  await key('z');
  check(await run("document.getElementById('note-number').value") === '5', 'a note is meant for the line of the last event');
  await browser.typed('both come here'); await key('Enter'); await calm();
  check(/✎ both come here/.test(await run("document.querySelectorAll('#paint .row')[4].textContent")), 'it stands behind its line');
  check(/line 5 both come here/.test(await textOf('#notes')), 'and in the list');
  await type('// \n' + await run('workbench.bench.text')); await type('global more;\n' + COUNTER);
  check(await run('JSON.stringify(workbench.bench.notes)') === '{"5":"both come here"}', 'it stays with its line: ' + await run('JSON.stringify(workbench.bench.notes)'));
  await reload();
  check(/line 6 both come here/.test(await textOf('#notes')), 'and goes with the link');
});

await part('share in a lesson gives what is seen, and 100,000 steps make a short link', async () => {
  await open('#lesson=1');
  for (const name of ['0', '0', '1', '1', 'ArrowLeft']) await key(name);
  await key('s'); await settled();
  const link = await textOf('#dialog .share pre'), before = await run(MADE);
  await run("document.getElementById('dialog').close()");
  check(/#lesson=1&done=2(?:&did=[\w-]+)?&example=counter\.asl&k=3&threads=2&steps=0011&at=3$/.test(link), 'the link: ' + link);
  await open('#' + link.split('#')[1]);
  check(await run(MADE) === before && await run("document.querySelectorAll('#s-lesson li.done').length") === 2, 'opens what was seen');
  await open('#lesson=3&steps=0101&at=2');
  check(await run("workbench.bench.title") === 'bank.asl' && String(await at()) === '2,4', 'a lesson with steps: ' + await at());
  const loop = 'global g; fn main(t) { one = 1; while one { x = one; } return t; }';
  await open();
  const steps = 'Array.from({ length: 100000 }, (_, i) => (i * 7919 >> 4) % 3)';
  await run(`workbench.bench.load({ text: ${JSON.stringify(loop)}, kind: 'asl', title: 'loop.asl', threads: 3, schedule: ${steps}, position: 90000 })`); await calm();
  const made = await run('workbench.bench.run.schedule.join("").length');
  await key('s'); await settled();
  const long = await textOf('#dialog .share pre');
  check(made === 100000 && long.length < 30000, `${made} steps, ${long.length} letters`);
  await open('#' + long.split('#')[1]);
  check(String(await at()) === '90000,100000' && await run(`workbench.bench.run.schedule.join() === (${steps}).join()`), 'opens with all of them: ' + await at());
  console.log('       a link of', long.length, 'letters for 100,000 steps');
});

await part('undo: a new row of typing after a step and after undo, no redo after another action, 200 moments, a lesson', async () => {
  const text = () => run('workbench.bench.text'), typed = async word => { await key('e'); await run("document.getElementById('text').setSelectionRange(0, 0)"); await browser.typed(word); await key('Escape'); await settled(); };
  await open('#example=counter.asl&k=3&threads=2');
  await typed(' '); await key('0'); await typed('  ');
  check(await text() === '   ' + COUNTER, 'typed before and after a step: ' + JSON.stringify((await text()).slice(0, 12)));
  await key('u'); await settled(); check(await text() === ' ' + COUNTER, 'undo of the second row: ' + JSON.stringify((await text()).slice(0, 12)));
  await key('u'); await settled(); check(await text() === COUNTER, 'and of the first: ' + JSON.stringify((await text()).slice(0, 12)));
  await typed(' '); await key('u'); await settled(); await typed('  '); await key('u'); await settled();
  check(await text() === COUNTER && await run("document.getElementById('undo').disabled"), 'a row after an undo: ' + JSON.stringify((await text()).slice(0, 12)));
  await key('k'); check(await run("document.getElementById('redo').disabled"), 'after another action there is no redo');
  await open('#example=counter.asl&k=3&threads=2');
  for (const name of ['v', ' ', 'Escape', '0', 'v', ' ', 'Escape']) { await key(name); await settled(); }
  const list = () => run('workbench.bench.own[0].length'), typedTwice = await list();
  await key('u'); await settled(); check(await list() === typedTwice - 1, 'in a list, too, a step ends a row: ' + await list());
  await open('#example=counter.asl&k=3&threads=2');
  for (const name of ['v', ' ', 'Escape', 'u', 'v', ' ', 'Escape', 'u']) { await key(name); await settled(); }
  check(await run('workbench.bench.own.length === 0'), 'and an undo: ' + await run('JSON.stringify(workbench.bench.own)'));
  await open('#example=counter.asl&k=3&threads=3&steps=2201&at=3');
  await key('T'); await settled(); check(String(await at()) === '1,2', 'fewer threads: the position is behind the same step: ' + await at());
  await run('(async () => { for (let i = 0; i < 205; i++) workbench.bench.setNotes({ 0: `n${i}` }); })()'); await calm();
  check(await run('workbench.bench.past.before.length') === 200 && await run('workbench.bench.past.before.at(-1).notes[0]') === 'n203' && await run('workbench.bench.past.before[0].notes[0]') === 'n4', 'the last 200 moments are kept: ' + await run('workbench.bench.past.before.at(-1).notes[0]'));
  await open('#lesson=1'); await key('n'); await settled();
  const done = () => run("document.querySelectorAll('#s-lesson li.done').length"), before = await done();
  await key('u'); await settled();
  check(before > 0 && await done() === 0 && String(await at()) === '0,0', `a go that did ${before} steps is undone with them: ${await done()}`);
});
