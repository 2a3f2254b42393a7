// Files and links that come in: several at once, in either order, both in one; and what is told of those that are refused.
import { readFileSync } from 'node:fs';
import { deflateRawSync } from 'node:zlib';
import { asl, at, calm, check, key, open, part, PASTE, run, settled, textOf } from './kit.mjs';
import { EXAMPLES } from './paths.mjs';
import { savedBy } from './runs.mjs';

const COUNTER = readFileSync(EXAMPLES + 'counter.asl', 'utf8');
const MINE = COUNTER.replace('x + one', 'one + x').replaceAll('count', 'total');
const bytes = data => JSON.stringify([...Buffer.from(data)]);
const opened = async (...files) => {
  await run(`workbench.openFiles([${files.map(([name, data]) => `{ name: ${JSON.stringify(name)}, bytes: new Uint8Array(${bytes(data)}) }`)}])`);
  await settled();
};
const runOf = (source, k, threads, ...steps) => asl(['step', '--threads', threads, '--record', ...steps], asl(['compile', '--k', k], source));
const seen = () => run('[workbench.bench.kind, workbench.bench.title, workbench.bench.k, workbench.bench.threads, workbench.bench.run?.schedule.join("")].join()');
const told = () => run("document.getElementById('trouble').hidden ? '' : document.getElementById('trouble').textContent");

await part('a run and its source: at once in either order, one after the other in either order', async () => {
  const student = runOf(MINE, 3, 3, 0, 0, 1, 1, 2), want = 'asl,mine.asl,3,3,00112';
  await open();
  await opened(['student.run', student], ['mine.asl', MINE]);
  check(await seen() === want && await told() === '', 'run, then source, at once: ' + await seen() + await told());
  await open();
  await opened(['mine.asl', MINE], ['student.run', student]);
  check(await seen() === want, 'source, then run, at once: ' + await seen());
  await open();
  await opened(['student.run', student]);
  check(/^asm,student\.asm,\d,3,00112$/.test(await seen()), 'a run alone is shown as assembly: ' + await seen());
  check(/student\.run: its program is that of none of the open sources, so the run is shown in assembly\. Open its source/.test(await told()), 'and says why: ' + await told());
  await opened(['mine.asl', MINE]);
  check(await seen() === want, 'its source comes after it: ' + await seen());
  await opened(['other.asl', COUNTER], ['second.run', runOf(MINE, 3, 2, 1, 1, 0)]);
  check(await seen() === 'asl,mine.asl,3,2,110', 'a source that was opened before: ' + await seen());
  const names = await run("[...document.querySelectorAll('#opened option')].map(e => e.textContent).join()");
  check(names === 'student.run,mine.asl,other.asl,second.run', 'what was opened is in the list: ' + names);
  await run("(() => { const e = document.getElementById('example'); e.value = '@0'; e.dispatchEvent(new Event('change')); })()"); await settled();
  check(await seen() === want, 'and is shown again from there: ' + await seen());
  for (const name of ['u', 'u']) await key(name);
  check(await run("workbench.bench.title") !== 'student.asm' && await run('workbench.bench.past.canGoForward'), 'undo goes back to what was there');
});

await part('files that are chosen are opened, and the same ones when they are chosen again', async () => {
  const choose = async (...files) => {
    const given = files.map(([name, data]) => `given.items.add(new File([new Uint8Array(${bytes(data)})], ${JSON.stringify(name)}));`);
    await run(`(() => { const given = new DataTransfer(), box = document.getElementById('file'); ${given.join('')}
      box.files = given.files; box.dispatchEvent(new Event('change', { bubbles: true })); })()`);
    await settled(); await settled();
  };
  const isEmpty = () => run("document.getElementById('file').files.length === 0");
  const student = runOf(MINE, 3, 3, 0, 0, 1, 1, 2), want = 'asl,mine.asl,3,3,00112';
  await open('#example=bank.asl&k=1&threads=2');
  await choose(['student.run', student], ['mine.asl', MINE]);
  check(await seen() === want && await told() === '', 'a run and its source: ' + await seen() + await told());
  check(await isEmpty(), 'the same ones are a change again');
  await key('c'); await key('0');
  check(await seen() === 'asl,mine.asl,3,3,0', 'another run: ' + await seen());
  await choose(['student.run', student]);
  check(await seen() === want && await isEmpty(), 'the same one once more: ' + await seen());
  await choose(['empty.asl', '']);
  check(/empty\.asl: it is empty/.test(await told()) && await seen() === want && await isEmpty(), 'one that is refused: ' + await told());
});

await part('a run of a program of a lesson that was opened finds it, also of its second one', async () => {
  const second = 'global h;\nfn main(t) {\n  p = &h;\n  atomic { *p = t; }\n  return t;\n}\n';
  const lesson = `lesson x\nexample counter.asl\nstep a\nuntil all threads have ended\nstep b\nprogram two.asl\n${second}end program\nuntil all threads have ended\n`;
  await open();
  await opened(['x.lesson', lesson], ['theirs.run', runOf(second, 2, 2, 0, 0, 1)]);
  check(/^asl,two\.asl,\d,2,001$/.test(await seen()) && await told() === '', 'with the lesson: ' + await seen() + await told());
  await open(); await opened(['x.lesson', lesson]); await opened(['theirs.run', runOf(second, 2, 2, 0, 1)]);
  check(/^asl,two\.asl,\d,2,01$/.test(await seen()) && await told() === '', 'after it: ' + await seen() + await told());
});

await part('source and run in one file, which gives the same again', async () => {
  await open('#lesson=3');
  for (const name of ['0', '1', '0', '0', 'ArrowLeft']) await key(name);
  await run("workbench.bench.setNotes({ 2: 'who comes first', 21: 'the section' })"); await calm();
  const said = `JSON.stringify((({ lesson, ...rest }) => ({ ...rest, lesson: lesson && [lesson.number, lesson.done] }))(workbench.bench.moment()))`, before = await run(said);
  await key('s');
  const file = await savedBy('Save bank.workbench');
  check(/^workbench 1\ntitle bank\.asl\nkind asl\nk 0\nthreads 2\nsteps 0 1 0\*2\nat 3\nnote 3 who comes first\nnote 22 the section\nlesson lesson=3&done=0\S*\ntext\nglobal ann;/.test(file), 'the file: ' + file.slice(0, 160));
  await open();
  await opened(['bank.workbench', file]);
  check(await run(said) === before, 'opened again: ' + (await run(said)).slice(-200));
  const wrong = [['k 0', 'k 9', 'line 4: a number from 0 to 8'], ['kind asl', 'kind c', 'line 3: a kind is asl or asm'], ['steps 0 1', 'steps 0 x', 'line 6: x is no step'],
    ['at 3', 'when 3', 'line 7: no line begins with when'], ['\ntext\n', '\n', 'line 94: the file ends without a line text'], ['workbench 1', 'workbench 2', 'line 1: the first line should be workbench 1'],
    ['note 3 who', 'note who', 'line 8: a note is the number of a line and words']];
  for (const [from, to, reason] of wrong) {
    await opened(['broken.workbench', file.replace(from, to)]);
    check((await told()).replace(/line \d+: the file/, 'line 94: the file').includes('broken.workbench: ' + reason), `${reason}: ${await told()}`);
    await key('Escape');
    check(await told() === '', 'Escape closes it');
  }
  check(await run(said) === before, 'what is refused changes nothing');
});

await part('a link is pasted: into the field, and onto the page; what cannot be read says why, until it is closed', async () => {
  await open('#example=counter.asl&k=3&threads=2&steps=0011&at=4');
  const paste = async words => {
    await key('i');
    check(await run("document.activeElement.id") === 'link', 'i opens the field');
    await run(`document.getElementById('link').value = ${JSON.stringify(words)}`);
    await key('Enter'); await settled();
  };
  const packed = deflateRawSync(MINE).toString('base64url');
  await paste('file:///home/student/workbench.html#asl=' + packed + '&title=theirs.asl&k=1&threads=3&steps=0012&at=2&lecture&theme=dark&keys=off');
  check(await seen() === 'asl,theirs.asl,1,3,0012' && (await at())[0] === 2, 'a link of another place: ' + await seen());
  check(await run("document.documentElement.dataset.dark !== '1' && !document.body.classList.contains('lecture')"), 'the look of the page stays');
  const refused = [['https://a.b/c', /^✕ The link: it has no #/], ['x#asl=' + packed.slice(0, -9), /The link: its text is damaged: a part of it is missing/], ['x#example=none.asl', /there is no example of the name none\.asl\./],
    ['x#lesson=99', /there is no lesson 99/], ['x#asl=' + packed + '&steps=~AAAA', /its schedule is damaged/], ['x#view=code', /nothing that can be opened/],
    ['x#asl=' + deflateRawSync(Buffer.alloc(2 ** 24 + 1, ' ')).toString('base64url'), /its text has more than 16777216 bytes/]];
  for (const [words, reason] of refused) {
    await paste(words);
    check(reason.test(await told()), `${words.slice(0, 30)}: ${await told()}`);
    check(await seen() === 'asl,theirs.asl,1,3,0012', 'nothing is lost by it');
    await run("document.getElementById('trouble-close').click()"); await calm();
  }
  await run(`document.body.dispatchEvent((${PASTE})('x#example=bank.asl&k=2&threads=4'))`); await settled();
  check(await seen() === 'asl,bank.asl,2,4,', 'pasted onto the page: ' + await seen());
  const link = 'file:///home/student/workbench.html#asl=' + packed + '&title=theirs.asl&k=1&threads=3&steps=0012&at=2', want = 'asl,theirs.asl,1,3,0012';
  for (const words of [`<${link}>.`, `see ${link}, please`, `(${link}).`, link.replace(/.{40}/g, '$& '), link.replace(/.{40}/g, '$&\n> ')]) {
    await run("workbench.bench.load({ text: 'fn main(t) { return t; }', kind: 'asl', title: 'x.asl', k: 3, threads: 2, lesson: null }).then(() => 1)"); await settled();
    await run(`document.body.dispatchEvent((${PASTE})(${JSON.stringify(words)}))`); await settled();
    check(await seen() === want && await told() === '', `${words.slice(0, 60)}: ${await seen()} ${await told()}`);
  }
  await paste('x#example=bank.asl&k=0 thanks');
  check(await seen() === 'asl,bank.asl,0,2,', 'words behind a link are none of it: ' + await seen());
});

await part('a damaged link of an answer or a lesson: one message, which stays, also where it is the address', async () => {
  const packed = deflateRawSync('answer x'.repeat(9)).toString('base64url').slice(0, -4), words = what => `✕ The link: its ${what} is damaged: a part of it is missing, or was changed on its way. Ask for it again, or for a file.Close`;
  for (const [fragment, what] of [['#answer=' + packed, 'answer'], ['#lesson-text=' + packed, 'lesson'], ['#answer=%20' + packed, 'answer'], [`#lesson-text=${packed}&done=0`, 'lesson']]) {
    await open(fragment); await settled();
    check(await told() === words(what) && await run("document.getElementById('note').hidden"), `the address ${fragment.slice(0, 20)}: ${await told()}`);
    check(await run('workbench.bench.title') === 'counter.asl', 'the page opens as without it');
    await open(); await key('i'); await run(`document.getElementById('link').value = 'x${fragment}'`); await key('Enter'); await settled();
    check(await told() === words(what), `pasted ${fragment.slice(0, 20)}: ${await told()}`);
  }
});

await part('a link to a page that is a file says how another person opens it', async () => {
  await open('#example=counter.asl&k=3&threads=2');
  await key('s'); await settled();
  check(/nobody else can follow the link\. Who gets it pastes it into “Open”/.test(await textOf('#dialog .link-hint')), 'share: ' + await textOf('#dialog .link-hint'));
  await key('Escape'); await open('#lesson=1'); await key('H'); await settled();
  check(/pastes it into “Open”/.test(await textOf('#dialog .link-hint')), 'hand in: ' + await textOf('#dialog .link-hint'));
});

await part('refused files are told in plain words, and stay; the bar does not speak of the old run', async () => {
  await open('#example=counter.asl&k=3&threads=2&steps=0011&at=4');
  const file = readFileSync(EXAMPLES + 'counter.run'), image = asl(['compile'], COUNTER);
  const cases = [['short.run', file.subarray(0, 30), /The file is cut off/], ['long.run', Buffer.concat([file, Buffer.from('x')]), /Its list of steps cannot be read\. There are bytes after the end/],
    ['late.run', file.subarray(0, -1), /The file is cut off\.$/], ['empty.run', Buffer.alloc(0), /it is empty, so nothing was opened/], ['empty.asl', Buffer.alloc(0), /it is empty/],
    ['old.asl', Buffer.from('global g;\n\nfn Verk\xE4ufer(t) {\n', 'latin1'), /its text is not in UTF-8, from line 3 on/], ['old.lesson', Buffer.from('lesson Verk\xE4ufer\n', 'latin1'), /its text is not in UTF-8, from line 1 on/],
    ['other.run', Buffer.concat([file.subarray(0, -1), Buffer.from([0])]), /does not belong to this program/], ['cut.img', image.subarray(0, 20), /The file is cut off, after 20 bytes\./]];
  for (const [name, data, reason] of cases) {
    await opened([name, data]);
    const words = await told();
    check(words.includes(name + ': ') && reason.test(words.replace(/Close$/, '').split('✕ ').at(-1)) && !/\w\(\d+\)/.test(words), `${name}: ${words}`);
    check(String(await at()) === '4,4', name + ': the run stays');
  }
  await run('new Promise(done => setTimeout(done, 3800))'); // (a note goes by itself after 3,500 ms)
  check((await told()).includes('cut.img'), 'it stays until it is closed');
  await run("document.getElementById('trouble-close').click()"); await calm();
  check(await told() === '', 'closed');
  const long = 'global g;\n'.repeat(120) + 'fn main(t) {\n  x = ;\n  return t;\n}\n';
  await opened(['bad.asl', long.replaceAll('global g;', (i => () => `global g${i++};`)(0))]);
  check(await run('workbench.bench.run === null') && /no run/.test(await textOf('#position')) && await run("document.getElementById('slide').disabled"), 'the bar: ' + await textOf('#position'));
  check(!/Event 3|blocked/.test(await textOf('#say')), 'the sentence: ' + await textOf('#say'));
  const inSight = await run(`(() => { const a = document.querySelector('#paint .refused')?.getBoundingClientRect(), b = document.getElementById('editor').getBoundingClientRect();
    return Boolean(a && a.top >= b.top && a.bottom <= b.bottom && a.bottom <= innerHeight); })()`);
  check(inSight && /Line 122/.test(await textOf('#complaint')), 'the bad line is in sight: ' + await textOf('#complaint'));
  await key('u');
  check(String(await at()) === '4,4' && await run("workbench.bench.title") === 'counter.asl', 'undo brings the old text and its run');
});

await part('several files at once: the last run is shown, each name stands once, the last source is found first, and it is told how many were opened', async () => {
  await open();
  await opened(['a.asl', MINE], ['one.run', runOf(MINE, 3, 2, 0, 0)], ['two.run', runOf(MINE, 3, 2, 1, 1, 1)]);
  check(await seen() === 'asl,a.asl,3,2,111' && /^two\.run: 3 steps of a\.asl, and 2 more in the list of examples\.$/.test(await textOf('#note')), `the last run: ${await seen()} ${await textOf('#note')}`);
  await opened(['a.asl', MINE + '\n'], ['b.asl', MINE.replace('fn main', '\nfn main')]); await opened(['three.run', runOf(MINE, 3, 2, 0)]);
  check(await seen() === 'asl,b.asl,3,2,0', 'a source that was opened later: ' + await seen());
  const names = await run("[...document.querySelectorAll('#opened option')].map(e => e.textContent).join()");
  check(names === 'a.asl,one.run,two.run,b.asl,three.run', 'each name once: ' + names);
  await opened(['good.asl', COUNTER], ['empty.asl', ''], ['bad.lesson', 'lesson x\nfoo y\n'], ['cut.img', asl(['compile'], COUNTER).subarray(0, 20)]); await settled();
  check(/^bad\.lesson is refusedThe other file was opened\. What is wrong/.test(await textOf('#dialog-title') + await textOf('#dialog-body')), 'of four files one is opened: ' + (await textOf('#dialog-body')).slice(0, 60));
  check(/empty\.asl: it is empty/.test(await told()) && /cut\.img: /.test(await told()), 'and two are told: ' + await told());
  await run("document.getElementById('dialog').close()");
  const file = 'workbench 1\ntitle many.asl\nthreads 128\nsteps 127 0*2\nat 2\nlist 0\nlock root write\nlock root write\ntext\n' + MINE;
  await opened(['many.workbench', file]);
  check(await run('JSON.stringify([workbench.bench.threads, workbench.bench.moment().schedule, workbench.bench.own])') === '[128,[127,0,0],["root write\\nroot write\\n"]]', 'the last thread, and a list of two locks: ' + await run('JSON.stringify([workbench.bench.threads, workbench.bench.moment().schedule, workbench.bench.own])') + await told());
});
