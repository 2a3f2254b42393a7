// Lessons as texts: each kind of fault is refused with its line, hostile ones stay texts, and what is handed in is replayed and judged.
import { readFileSync } from 'node:fs';
import { deflateRawSync, inflateRawSync } from 'node:zlib';
import { browser, calm, check, key, must, open, part, PASTE, run, settled, textOf, until } from './kit.mjs';

export const pack = text => deflateRawSync(text).toString('base64url');
export const GOOD = `# of a test
lesson Two steps
about a test
program own.asl
  global g;
  fn main(t) {
    p = &g;
    atomic { *p = t; }
    out t;
    return t;
  }
end program
k 1
threads 2
step first
hint by key 0
until thread 0 is inside main
step second
choice one
choice two
right two
until all threads have ended
answer it is done
`;
export const edit = (from, to) => GOOD.replace(from, to);
// A text, the line that is wrong, and what is said of it.
const FAULTS = [
  ['hello', 1, /first line is "lesson"/], [edit('lesson Two steps\n', ''), 2, /first line is "lesson"/],
  [edit('lesson Two steps', 'lesson'), 2, /something is missing after "lesson"/], [edit('about a test', 'abut a test'), 3, /"abut" is no word/],
  [edit('about a test', 'about a test\nabout another'), 4, /stands here twice/], [edit('end program', 'end programme'), 4, /the program has no end program before the step in line 15/],
  [edit('own.asl', 'own.txt'), 4, /ends in \.asl or \.asm/], [edit('*p = t;', '*p = u;'), 8, /the program is refused: .*u/], [edit('*p = t;', '*p = t'), 8, /does not continue a program here; a ; is missing before it/],
  [edit('out t;', 'out t'), 9, /; is missing at the end of this line, before return\.?(?!; )/],
  [edit('end program', 'end program\nexample counter.asl'), 13, /a program stands here already/],
  [edit(/program own[^]*end program/, 'example nope.asl'), 4, /no example "nope.asl"/], [edit(/program own[^]*end program\n/, ''), 15, /there is no program/],
  [edit('k 1', 'k 9'), 13, /k is a number from 0 to 8/], [edit('threads 2', 'threads 0'), 14, /threads is a number from 1 to 128/],
  [edit('threads 2', 'threads 2\nsteps 0 1 2'), 15, /each step is the number of a thread/], [edit('threads 2', 'list 3\nend list'), 14, /no section 3: it has section 0 alone/],
  [edit('threads 2', 'list 0\nexpr r9 read\nend list'), 14, /List of section 0/],
  [edit('threads 2', 'list 0\nexpr r0 write\nexpr r1 wrte\nend list'), 16, /List of section 0, line 2/], [edit('threads 2', 'list 0\n\nexp r0 write\nend list'), 16, /is no lock/],
  [edit('threads 2', 'list 0\nexpr r0 write'), 14, /the list has no end list before the step in line 16/], [edit('threads 2', 'list x\nend list'), 14, /number of a section/],
  [edit('threads 2', 'forbid sleep'), 14, /"sleep" cannot be forbidden/], [edit('threads 2', 'hint too early'), 14, /"hint" stands after a "step"/],
  [edit('answer it is done', 'about too late'), 23, /stands before the first "step"/], [edit('until thread 0 is inside main\n', ''), 15, /no "until", and no "choice"/],
  [edit('thread 0 is inside main', 'thread 0 is asleep'), 17, /"is asleep" is not what .* "is inside F", "has left its section"/], [edit('thread 0 is inside main', 'thread zero is inside'), 17, /a condition of threads begins with/],
  [edit('thread 0 is inside main', 'the moon is full'), 17, /"the moon is full" is not a condition: .*"k is 1"/], [edit('thread 0 is inside main', 'both threads are blocked'), 17, /begins with "thread 0", "some thread", "all threads"/],
  [edit('thread 0 is inside main', 'thread 0 prints 1'), 17, /"has printed 1"/], [edit('thread 0 is inside main', 'thread 7 is inside'), 17, /there is no thread 7/],
  [edit('is inside main', 'is inside mine'), 17, /has no function "mine": there are main/], [edit('choice two\n', ''), 18, /one "choice" only/],
  [edit('right two\n', ''), 18, /no "right" choice/], [edit('right two', 'right three'), 21, /none of the choices/], [edit('choice two', 'choice one'), 20, /stands here twice/],
  [edit(/step first[^]*/, ''), 15, /there is no "step"/], [edit('until thread', 'keys 0 Hyper\nuntil thread'), 17, /"Hyper" is no key/],
  [edit(/program own[^]*end program/, 'example counter.asm').replace('is inside main', 'is inside').replace('all threads have ended', 'lists are enough'), 14, /judged by its source/],
  [edit('until all', 'program own.asl\nfn main(t) { return t; }\nend program\nuntil all'), 22, /of this name is open already/],
  [edit('k 1', 'source\n fn main(t) { return u; }\nend source'), 14, /the program is refused/],
];
// Lessons in which several lines are wrong: all are told, and nothing else.
const SEVERAL = [
  [edit('hint by key 0', 'hnt by key 0').replace('right two', 'right three').replace('is inside main', 'is inside mine'), [16, 17, 21]],
  [edit('until all', 'program two.asl\n  fn book(t) { return t; }\n  fn main(t) { return t; }\nend program\nuntil thread 0 is inside book\nuntil all').replace('end program\nk', 'k'), [4]],
  [edit('until all', 'program two.asl\n  fn book(t) { return t; }\nuntil thread 0 is inside book\nuntil all'), [22]],
  [edit(/program own[^]*end program/, 'example nope.asl').replace('choice one\n', ''), [4, 10]],
  [edit('is inside main', 'is blockd'), [17]], [edit('threads 2', 'threads two').replace('thread 0 is', 'thread 1 is'), [14]],
  [edit('*p = t;', '*p = u;').replace('until all', 'program two.asl\n fn main(t) { return v; }\nend program\nuntil all'), [8, 23]],
];
export const openText = async text => { await open('#lesson-text=' + pack(text)); await settled(); };
export const refusals = () => run("[...document.querySelectorAll('.refusals li')].map(li => li.textContent)");

await part('a lesson with each kind of fault is refused, with the line and the reason', async () => {
  await openText(GOOD);
  check(await textOf('#lesson-title') === 'Two steps' && await run("!document.getElementById('dialog').open"), 'the good one opens: ' + await textOf('#dialog'));
  for (const [text, line, reason] of FAULTS) {
    await run(`workbench.loadFile('a.lesson', new TextEncoder().encode(${JSON.stringify(text)}))`); await calm();
    const told = await refusals();
    check(told.some(words => words.startsWith(`Line ${line}: `) && reason.test(words)), `line ${line}, ${reason}: ${told.join(' / ')}`);
    check(new Set(told).size === told.length, 'nothing is told twice: ' + told.join(' / '));
    check(await textOf('#lesson-title') === 'Two steps' && await run('workbench.bench.title') === 'own.asl', 'what was open stays');
    await run("document.getElementById('dialog').close()");
  }
  for (const [text, lines] of SEVERAL) {
    await run(`workbench.loadFile('a.lesson', new TextEncoder().encode(${JSON.stringify(text)}))`); await calm();
    const told = await refusals();
    check(String(told.map(words => Number(/^Line (\d+)/.exec(words)?.[1]))) === String(lines), `lines ${lines}: ${told.join(' / ')}`);
    await run("document.getElementById('dialog').close()");
  }
  await openText(edit('about a test', 'about a `test`'));
  check(await textOf('#lesson-about code') === 'test', 'code in what it is about: ' + await textOf('#lesson-about'));
});

const EVIL = '<img src=x onerror="window.bad=1"><script>window.bad=1</script>\u202Egnp';
await part('a hostile lesson stays text', async () => {
  const text = GOOD.replaceAll('Two steps', EVIL).replace('a test\nprogram', EVIL + '\nprogram').replace('step first', 'step ' + EVIL).replace('by key 0', EVIL)
    .replace('choice one', 'choice ' + EVIL).replace('it is done', EVIL);
  await openText(text);
  await run("document.querySelector('#lesson-steps .link').click()"); await calm();
  check(/onerror/.test(await textOf('#lesson-title')) && /onerror/.test(await textOf('#lesson-steps em')), 'it is open: ' + await textOf('#s-lesson'));
  for (const name of ['j', 'Escape', 'H', 'Escape']) { await key(name); await settled(); }
  await openText('lesson x\n' + EVIL + '\nuntil ' + EVIL + '\n'.repeat(3) + 'k ' + EVIL);
  check(/onerror/.test((await refusals()).join()), 'and refused: ' + await refusals());
  await openText('lesson ' + 'x'.repeat(100000) + '\nprogram ' + '../../'.repeat(9) + 'a.asl\n' + 'a'.repeat(100000) + '\nend program\nforbid __proto__\nconstructor y\nlist 0\nend list');
  check(/"constructor" is no word/.test((await refusals()).join()) && /"__proto__" cannot/.test((await refusals()).join()), 'names of objects are words like others: ' + (await refusals()).join().slice(0, 200));
  for (const letters of ['', 'AAAA', '!!!', pack('lesson').slice(2)]) { await open('#lesson-text=' + letters); await settled(); }
  must(await run('window.bad === undefined && document.images.length === 0 && document.scripts.length') === 4, 'no markup comes of it');
  check(await run('workbench.bench.title') === 'counter.asl', 'a damaged link opens the page as it is');
});

await part('what a step forbids is told by its name, and its buttons are grey', async () => {
  await openText(edit('threads 2', 'threads 2\nforbid robin k threads edit'));
  const grey = () => run("['robin', 'random', 'until', 'k', 'threads-wanted'].filter(id => document.getElementById(id).disabled).join()");
  check(await grey() === 'robin,k,threads-wanted', 'grey: ' + await grey());
  for (const [name, words] of [['r', 'Round robin'], ['k', 'another k'], ['t', 'another number of threads']]) {
    await key(name); await settled();
    check(await textOf('#note') === `This step of the lesson is to be done without ${words}.`, `${name}: ${await textOf('#note')}`);
  }
  const text = await run('workbench.bench.text');
  await key('e'); await key('x'); await settled();
  check(/without another text\.$/.test(await textOf('#note')), 'a letter: ' + await textOf('#note'));
  await run(`document.getElementById('text').dispatchEvent((${PASTE})('global more;'.repeat(400)))`); await settled();
  check(await run('workbench.bench.text') === text, 'the text stays, also where a long one is pasted');
  await key('Escape'); await run("document.getElementById('lesson-close').click()"); await settled();
  check(await grey() === '', 'without the lesson none is grey: ' + await grey());
});

export const unpack = letters => inflateRawSync(Buffer.from(letters, 'base64url')).toString();
export const handedIn = async by => {
  await key('H');
  await run(`(() => { const e = document.getElementById('handed-by'); e.value = ${JSON.stringify(by)}; e.dispatchEvent(new Event('input')); })()`);
  await run("document.getElementById('hand-link').click()"); await settled();
  const link = await textOf('#handed');
  await run("document.getElementById('dialog').close()"); await settled();
  return link.slice(link.indexOf('#'));
};
export const summaries = () => run("[...document.querySelectorAll('#answers .line > :last-child')].map(line => line.textContent)");
export const give = async (text, name = 'a.answer') => { await run(`workbench.loadFile('${name}', new TextEncoder().encode(${JSON.stringify(text)}))`); await settled(); await calm(); };

await part('what was done is handed in by a link, replayed and judged', async () => {
  await openText(GOOD);
  for (const name of ['0', '0']) await key(name);
  const half = await handedIn('Ada');
  await until("/^#lesson-text=[^&]*&done=1\\b/.test(location.hash)", () => run('location.hash')); await open(await run('location.hash')); await settled();
  check(await textOf('#lesson-title') === 'Two steps' && await run("document.querySelectorAll('#s-lesson li.done').length") === 1, 'a reload keeps the lesson: ' + await textOf('#s-lesson'));
  for (const name of ['r']) await key(name);
  await run("document.querySelectorAll('.choices button')[1].click()"); await settled();
  check(/^Done\. it is done/.test(await textOf('#lesson-end')), 'it is done: ' + await textOf('#lesson-end'));
  const whole = await handedIn(EVIL);
  await open(half); await settled();
  check(/Ada \(by a link\) Two steps: ✕ 1 of 2 steps \(by the lesson that came with it/.test(String(await summaries())) && /came with the answer/.test(await textOf('#answer-origin')), String(await summaries()));
  check(await run('workbench.bench.run.length') === 2, 'the run is opened, too');
  await open(whole); await settled();
  check(/: all 2 steps \(by the lesson that came with it/.test(String(await summaries())) && /Chosen: two/.test(await textOf('#answer-steps')) && await run('window.bad === undefined && document.images.length === 0'), String(await summaries()));
  await run("document.querySelectorAll('#answer-steps .link')[0].click()"); await settled();
  check(await run('workbench.bench.position') === 2, 'a step is looked at');
});

await part('a lesson that was changed gives no tick: the line is told where it differs from the one that is open', async () => {
  const answer = text => `answer Two steps\nby Eve\nlesson text\n${text}end lesson\n\nstep 1\nk 1\nthreads 2\nsteps 0*2\nat 2\n\nstep 2\nk 1\nthreads 2\nsteps 0*9 1*9\nat 18\nchoice two\n`;
  const ticks = () => run("[...document.querySelectorAll('#answers .is-free')].length");
  await open(); await give(answer(GOOD));
  check(/Eve \(a\.answer\) Two steps: all 2 steps \(by the lesson that came with it\)$/.test(String(await summaries())) && await ticks() === 0, 'where none is open it gives none: ' + await summaries());
  await openText(GOOD.replace('hint by key 0', 'hint by key 0 ').replaceAll('\n', '\r\n')); await give(answer(GOOD));
  check(/Eve \(a\.answer\) Two steps: ✓ all 2 steps$/.test(String(await summaries())) && await ticks() === 1, 'the one that is open gives it, with other line ends: ' + await summaries());
  check(/opened here/.test(await textOf('#answer-origin')), await textOf('#answer-origin'));
  await openText(GOOD);
  for (const [text, line] of [[edit('until all threads have ended', 'until k is 1'), 22], [edit('atomic { *p = t; }', 'atomic { *p = 1; }').replace('*p = 1', 'x = *p'), 8], [GOOD + 'forbid go\n', 23]]) {
    await give(answer(text));
    check(String((await summaries()).at(-1)).includes(`not your lesson: its text differs from the one that is open here (line ${line})`) && await ticks() === 0, `line ${line}: ${await summaries()}`);
    check(/another one/.test(await textOf('#answer-origin')), await textOf('#answer-origin'));
  }
});

await part('the choices of a step, and what opens its program, are reached by a key; nothing is judged before that', async () => {
  const text = edit('step second', 'step write it\nprogram two.asl\n  global h;\n  fn main(t) { p = &h; atomic { *p = t; } return t; }\nend program\nlist 0\nend list\nuntil lists are enough\nstep second');
  const focus = () => run('document.activeElement.textContent.slice(0, 30)'), verdict = () => run("[...document.querySelectorAll('#own-verdict')].filter(e => e.checkVisibility()).map(e => e.textContent).join()");
  await openText(text); await key('S'); await settled();
  check(/No step of a lesson waits/.test(await textOf('#note')), await textOf('#note'));
  await key('v'); await settled(); check(/enough/.test(await verdict()), 'the lists of the first program: ' + await verdict());
  for (const name of ['Escape', '0', '0']) await key(name);
  await settled();
  check(await verdict() === '', 'nothing is judged while the program of the step is not open: ' + await verdict());
  await key('S'); check(await focus() === 'open two.asl', 'its button has the focus: ' + await focus());
  await key('Enter'); await settled(); await settled();
  check(await run('workbench.bench.title') === 'two.asl' && /not enough/.test(await verdict()), 'then it is judged: ' + await verdict());
  await key('v'); await settled(); await browser.typed('expr r1 write'); await settled(); await key('Escape'); await settled();
  for (const [name, wanted] of [['S', 'one'], ['ArrowDown', 'two'], ['ArrowDown', 'one'], ['ArrowUp', 'two']]) {
    await key(name); check(await focus() === wanted, `${name}: ${await focus()}`);
  }
  await key('Enter'); await settled();
  check(await run("[...document.querySelectorAll('.choices button')].map(e => e.ariaPressed).join()") === 'false,true', 'it is taken: ' + await textOf('#lesson-steps'));
});

await part('of several files that are dropped at once only the broken ones are refused', async () => {
  const answer = (by, more = '') => `answer A lock, and who waits\nby ${by}\nlesson 1\n\nstep 1\nsteps 0*2\nat 2\n${more}`;
  const give = files => run(`workbench.openFiles(${JSON.stringify(files)}.map(([name, text]) => ({ name, bytes: new TextEncoder().encode(text) })))`);
  await open();
  await give([['a.answer', answer('Ada')], ['b.answer', answer('Bob')], ['cut.answer', answer('Cut', 'step 9\n')], ['d.answer', answer('Dan')]]); await settled(); await calm();
  check(/cut\.answer is refused/.test(await textOf('#dialog')) && /The other 3 files were opened\. What is wrong/.test(await textOf('#dialog')) && (await summaries()).length === 3, await textOf('#dialog'));
  await run("document.getElementById('dialog').close()");
  await give([['a.answer', answer('Ada', 'step 9\n')], ['l.lesson', GOOD.replace('k 1', 'k 9')]]); await settled();
  check(/2 files are refusedNothing was opened\./.test(await textOf('#dialog')) && /a\.answer/.test(await textOf('#dialog')) && String((await refusals()).map(words => words.slice(0, 8))) === 'Line 8: ,Line 13:', await textOf('#dialog'));
  await run("document.getElementById('dialog').close()");
});

await part('neither an answer nor a link has the keys of a lesson, and what stands behind #', async () => {
  const text = edit('step first', '# quickly\nstep first').replace('hint by key 0', 'keys 0 0\nhint by key 0').replace('choice one', 'keys r right\nchoice one');
  await open(); await run(`workbench.loadFile('a.lesson', new TextEncoder().encode(${JSON.stringify(text)}))`); await settled();
  for (const name of ['0', '0']) await key(name);
  await until("/^#lesson-text=[^&]*&done=1\\b/.test(location.hash)", () => run('location.hash'));
  const answer = unpack((await handedIn('Ada')).replace('#answer=', '')), address = unpack(/lesson-text=([\w-]+)/.exec(await run('location.hash'))[1]);
  check(!/keys|quickly|of a test/.test(answer + address), 'no keys: ' + answer);
  check(/^right two$/m.test(answer) && /^answer it is done$/m.test(address), 'but all else, as LESSONS says');
  await give(answer.replace(/step 1\n[^]*/, 'step 1\nsteps 0*2\nat 2\nstep 2\nsteps 0*9 1*9\nat 18\nchoice two\n'));
  check(/✓ all 2 steps$/.test(String((await summaries()).at(-1))) && /opened here/.test(await textOf('#answer-origin')), 'it is by the lesson that is open, which has keys: ' + await summaries());
  await give(answer.replace('hint by key 0', 'hint by key 1'));
  check(/\(line 18\)/.test(String((await summaries()).at(-1))), 'lines are those of the own file: ' + await summaries());
});

await part('what is tried at the open step is handed in as tried, and shown as that', async () => {
  const tried = async () => unpack((await handedIn('Bob')).replace('#answer=', ''));
  await openText(GOOD);
  check(!/^step 1\nk/m.test(await tried()), 'nothing was tried yet: ' + await tried());
  for (const name of ['1', '1']) await key(name);
  const first = await tried();
  check(/\nstep 1\nk 1\nthreads 2\nsteps 1\*2\nat 2\ntried\n\nend answer\n$/.test(first), 'steps that do not do it: ' + first.slice(-100));
  await key('c'); for (const name of ['0', '0']) await key(name);
  check(!/tried/.test(await tried()), 'the step is done: ' + await tried());
  await run("document.querySelectorAll('.choices button')[0].click()"); await settled();
  const second = await tried();
  check(/\nstep 1\n[^]*\nstep 2\n[^]*\nchoice one\nmissed 1\ntried\n\nend answer\n$/.test(second), 'a wrong choice: ' + second.slice(-160));
  await key('H'); check(/Of step 2 what is there now is handed in, too/.test(await textOf('#dialog')), await textOf('#dialog')); await key('Escape');
  await openText(GOOD); await give(second);
  check(/^Bob \(a\.answer\) Two steps: ✕ 1 of 2 steps done, one tried$/.test(String((await summaries()).at(-1))), String(await summaries()));
  check(/tried, not done/.test(await textOf('#answer-steps li:nth-child(2)')) && /Chosen: one/.test(await textOf('#answer-steps')), await textOf('#answer-steps'));
  await run("[...document.querySelectorAll('#answer-steps .link')].at(-1).click()"); await settled();
  check(String(await run('workbench.bench.run.schedule')) === '0,0', 'it is looked at');
});

await part('another text and lists by hand are handed in, each with its section, and an empty list too', async () => {
  const two = edit('atomic { *p = t; }', 'atomic { *p = t; }\n    atomic { *p = t; }'), handed = async () => unpack((await handedIn('Lea')).replace('#answer=', ''));
  const write = async (section, list) => { await run(`(() => { const t = document.querySelector('[data-list="${section}"]'); t.value = ${JSON.stringify(list)}; t.dispatchEvent(new Event('input')); })()`); await settled(); };
  await openText(two); await key('v'); await settled(); await key('Escape');
  await write(0, '');
  check(/\nstep 1\nk 1\nthreads 2\nlist 0\nend list\nat 0\ntried\n/.test(await handed()), 'an empty list is tried: ' + (await handed()).slice(-120));
  await key('u'); await settled(); check(!/tried/.test(await handed()), 'nothing is tried any more: ' + (await handed()).slice(-120));
  await write(1, 'root write');
  const text = await handed();
  check(/\nstep 1\nk 1\nthreads 2\nlist 1\nroot write\nend list\nat 0\ntried\n/.test(text), 'the list of section 1: ' + text.slice(-120));
  await run("document.getElementById('lesson-close').click()"); await give(text); await run("document.querySelector('#answer-steps .link').click()"); await settled();
  check(await run('JSON.stringify(workbench.bench.own)') === '[null,"root write\\n"]' && await run("document.getElementById('s-own').checkVisibility()"), 'is there when it is looked at: ' + await run('JSON.stringify(workbench.bench.own)'));
  await openText(two);
  await run(`(() => { const t = document.getElementById('text'); t.value = t.value.replace('out t;', 'out p;'); t.dispatchEvent(new Event('input')); })()`); await settled();
  check(/\nstep 1\nprogram own\.asl\nglobal g;\n[^]*out p;\n[^]*\nend program\nk 1\n/.test(await handed()), 'another text of the same name: ' + (await handed()).slice(-200));
});

await part('an answer is judged by what it holds, and a wrong one is refused', async () => {
  await open();
  const head = 'answer A lock, and who waits\nby Bob\nlesson 1\n';
  await give(head + 'step 1\nsteps 0*2\nat 2\nstep 2\nsteps 0*2 1\nat 3\n');
  check(/✕ 1 of 5 steps; the file has no last line/.test(String(await summaries())), 'a claim that is not so: ' + await summaries());
  check(/does not do it/.test(await textOf('#answer-steps')) && /not done/.test(await textOf('#answer-steps')), await textOf('#answer-steps'));
  await give('answer A list of your own\nlesson 6\nstep 4\nk 0\nlist 1\nexpr r1 write\nexpr r2 write\nend list\nat 0\n');
  await give('answer A list of your own\nlesson 6\nstep 4\nk 0\nlist 1\nexpr r1 write\nend list\nat 0\n');
  const told = await summaries();
  check(told.length === 3 && /✕ 1 of 4/.test(told[1]) && /✕ 0 of 4/.test(told[2]), 'lists are judged by check: ' + told);
  for (const [text, line, reason] of [['by Bob', 1, /first line is "answer"/], [head.replace('lesson 1', 'lesson 99'), 3, /no lesson 99/], [head.replace('waits', 'sleeps'), 3, /another title/],
    [head + 'step 9', 4, /has 5 steps/], [head + 'at 3', 4, /stands after a "step"/], [head + 'step 1\nsteps 5*2', 5, /no steps of its threads/], [head + 'step 1\nsteps 0*9999999999', 5, /no steps/],
    [head + 'step 0', 4, /has 5 steps/], [head + 'step 1\nthreads 2\nsteps 2', 6, /no steps of its threads/], [head + 'step 1\nthreads 0', 5, /threads are 1 to 128/], [head + 'step 1\nthreads 129', 5, /1 to 128/],
    [head + 'step 1\nk 9', 5, /from 0 to 8/], [head + 'step 1\nlist 1024\nend list', 5, /no section/],
    [head + 'step 1\nsleep', 5, /"sleep" is no word of an answer/], [head + 'step 1\nprogram a.asl\nx', 5, /the file is cut off before end program\.program a/], ['answer x\nlesson text\nlesson\nend lesson', 2, /the lesson in it is refused/]]) {
    await give(text);
    const said = await refusals();
    check(said.some(words => words.startsWith(`Line ${line}: `) && reason.test(words)), `line ${line}, ${reason}: ${said.join(' / ')}`);
    await run("document.getElementById('dialog').close()");
  }
  check((await summaries()).length === 3, 'and nothing is lost by it');
  await give(head + 'step 1\nprogram counter.asl\nfn main(t) { x = ; }\nend program\nat 0\n');
  check(/its program is refused: /.test(await textOf('#answer-steps li')), 'a program that is refused: ' + await textOf('#answer-steps'));
  await give(head + 'step 1\nk 8\nthreads 128\nsteps 127*2\nat 2\nstep 5\nat 0\nend answer\n');
  check((await summaries()).length === 5, 'the greatest numbers are taken: ' + await textOf('#dialog[open]'));
  check(JSON.parse(await run('JSON.stringify(workbench.toolStatistics())')).sessions === 1, 'what judged has closed its runs');
});

const page = name => readFileSync(new URL('../../docs/' + name, import.meta.url), 'utf8');
await part('the lesson and the links of the pages open', async () => {
  const [, shortest] = /```\n(lesson [^`]*)```/.exec(page('LESSONS.md'));
  await openText(shortest);
  for (const name of '0011') await key(name);
  check(/^Done\. Keys 0 0 1 1/.test(await textOf('#lesson-end')), 'the shortest lesson is done by its answer: ' + await textOf('#s-lesson'));
  const links = [...page('TEACHING.md').matchAll(/\]\(workbench\.html(#[^)]*)\)/g)].map(([, link]) => link);
  check(links.length >= 14, 'links: ' + links.length);
  const said = { 'lost.asl': /Start/, 'bank.asl': /blocked.*class 1/, 'walk.asl': /blocked.*head/, 'unprotected.asm': /▲ fault: \S+ is read without a lock; the thread held nothing/ };
  for (const link of links) {
    await open(link); await settled();
    const [, example] = /example=([\w.-]+)/.exec(link) || [], [, number] = /lesson=(\d)/.exec(link) || [];
    check(await run("document.getElementById('trouble').hidden && workbench.bench.run !== null"), link + ': ' + await textOf('#trouble'));
    if (number) check((await textOf('#lesson-title')).startsWith(`Lesson ${number}: `), link);
    else check(await run('workbench.bench.title') === example && await run("document.body.classList.contains('lecture')") === /lecture/.test(link), link);
    if (said[example]) check(said[example].test((await textOf('#say')).replace(/\s+/g, ' ')), `${link}: ${await textOf('#say')}`);
  }
});
