// Answers that come back: what a lesson forbids is judged in them, many are looked through, what is cut off is told, and an open lesson waits.
import { browser, calm, check, key, open, part, run, settled, textOf, until } from './kit.mjs';
import { edit, give, GOOD, handedIn, openText, refusals, summaries, unpack } from './lessonfiles.mjs';
import { READY } from './paths.mjs';

// An answer to such a lesson: what its two steps say, and its last line.
const DONE = ['k 1\nthreads 2\nsteps 0*2\nat 2\n', 'k 1\nthreads 2\nsteps 0*9 1*9\nat 18\nchoice two\n'];
const answer = (lesson, by, [first, second] = DONE, end = 'end answer\n') =>
  `answer Two steps\nby ${by}\nlesson text\n${lesson}end lesson\n\nstep 1\n${first}\nstep 2\n${second}\n${end}`;
const lastLine = async () => String((await summaries()).at(-1)), green = () => run("document.querySelectorAll('#answers .is-free').length");
const openDialog = () => textOf('#dialog[open]'), shut = () => run("document.getElementById('dialog').close()");
const OTHER = `program own.asl\nfn main(t) { p = new 1; atomic { *p = t; } out t; return t; }\nend program\n`;

await part('what a step forbids is judged in an answer, and its line says it', async () => {
  const strict = edit('threads 2', 'threads 2\nforbid edit k threads lists'), [first, second] = DONE;
  const cases = [[OTHER + first, 'another text'], [first.replace('k 1', 'k 2'), 'another k'], [first.replace('threads 2', 'threads 3'), 'another number of threads'],
    [first.replace('steps', 'list 0\nroot write\nend list\nsteps'), 'other lists'], [first.replace('k 1\nthreads 2', 'k 0\nthreads 5'), 'another k and another number of threads']];
  await openText(strict); await give(answer(strict, 'Ada'));
  check(/✓ all 2 steps$/.test(await lastLine()) && await green() === 1, 'as it was opened: ' + await lastLine());
  for (const [said, words] of cases) {
    await give(answer(strict, words, [said, second]));
    check((await lastLine()).endsWith(`✕ 1 of 2 steps; step 1 with ${words}, which the lesson forbids`) && await green() === 1, `${words}: ${await lastLine()}`);
    check((await textOf('#answer-steps li')).includes(`(with ${words}, which the lesson forbids)`), await textOf('#answer-steps'));
  }
  for (const [said, words] of cases) {
    await openText(GOOD); await give(answer(GOOD, words, [said, second]));
    const changed = words === 'another text';
    check(changed ? /✓ all 2 steps, 1 with a changed text$/.test(await lastLine()) : /✓ all 2 steps$/.test(await lastLine()), `${words}, where nothing is forbidden: ${await lastLine()}`);
    check(await green() === (changed ? 0 : 1), 'a changed text is not green');
  }
  const later = edit('step second', 'step second\nforbid k');
  await openText(later); await give(answer(later, 'Kim', [first.replace('k 1', 'k 4'), second.replace('k 1', 'k 4')]));
  check(/✓ all 2 steps$/.test(await lastLine()), 'what the step before has left: ' + await lastLine());
  await give(answer(later, 'Kim', [first.replace('k 1', 'k 4'), second.replace('k 1', 'k 5')]));
  check(/✕ 1 of 2 steps; step 2 with another k, which/.test(await lastLine()), 'and another one: ' + await lastLine());
});

await part('a step is not ticked with what it forbids, and says so', async () => {
  const text = 'global g;\nfn main(t) {\n  p = &g;\n  atomic { *p = t; }\n  return t;\n}\n';
  await openText(edit('threads 2', 'threads 2\nforbid edit'));
  await run(`workbench.loadFile('own.asl', new TextEncoder().encode(${JSON.stringify(text)}))`); await settled();
  for (const name of ['0', '0']) await key(name);
  check(await run("document.querySelectorAll('#s-lesson li.done').length") === 0 && /It is not done with another text: open own\.asl/.test(await textOf('#lesson-steps')), await textOf('#lesson-steps'));
  await key('S'); await key('Enter'); await settled();
  for (const name of ['0', '0']) await key(name);
  check(await run("document.querySelectorAll('#s-lesson li.done').length") === 1, 'with its own text it is: ' + await textOf('#lesson-steps'));
});

await part('what a step forbids is not left by a step that forbids it too, nor by one with another program; blanks and empty rows change no list', async () => {
  const strict = edit('threads 2', 'threads 2\nforbid edit lists'), [first, second] = DONE;
  await openText(strict); await give(answer(strict, 'Kim', [OTHER + first, OTHER + second]));
  check((await lastLine()).endsWith('✕ 0 of 2 steps; step 1 with another text, step 2 with another text, which the lesson forbids'), 'twice another text: ' + await lastLine());
  const two = edit('step second', 'step second\nprogram two.asl\n  fn main(t) { p = new 1; atomic { *p = t; } out t; return t; }\nend program\nk 1\nforbid k');
  await openText(two); await give(answer(two, 'Kim', [first.replace('k 1', 'k 4'), second.replace('k 1', 'k 4')]));
  check((await lastLine()).endsWith('✕ 1 of 2 steps; step 2 with another k, which the lesson forbids'), 'the k of another program: ' + await lastLine());
  const listed = edit('threads 2', 'threads 2\nlist 0\nexpr r1 write\nend list\nforbid lists'), lists = text => [first, second].map(step => step.replace('steps', `list 0\n${text}end list\nsteps`));
  await openText(listed); await give(answer(listed, 'Kim', lists('\n  expr r1 write  \n\n')));
  check(/✓ all 2 steps$/.test(await lastLine()), 'the same list: ' + await lastLine());
  await give(answer(listed, 'Kim', lists('expr r1 write\n').map(step => step.replace('list 0', 'list 1'))));
  check(/step 1 with other lists, step 2 with other lists, which the lesson forbids$/.test(await lastLine()), 'the same list of another section: ' + await lastLine());
});

await part('a text without a line end is the same one when it comes back by a link', async () => {
  const later = edit('step second', 'step second\nforbid edit'), text = 'global g;\nfn main(t) {\n  p = &g;\n  atomic { *p = t; }\n  out t;\n  return t;\n}';
  await openText(later);
  await run(`workbench.loadFile('own.asl', new TextEncoder().encode(${JSON.stringify(text)}))`); await settled();
  for (const name of ['0', '0']) await key(name);
  await until("/&done=1&did=/.test(location.hash)", () => run('location.hash')); await open(await run('location.hash')); await settled();
  await key('r'); await run("document.querySelectorAll('.choices button')[1].click()"); await settled();
  check(/^Done\./.test(await textOf('#lesson-end')), 'it is what the step before has left: ' + await textOf('#lesson-steps'));
});

const inSight = selector => run(`(e => { const { top, bottom } = e.getBoundingClientRect(); return top >= 0 && bottom <= innerHeight; })(document.querySelector(${JSON.stringify(selector)}))`);
const MOMENT = `JSON.stringify((({ title, schedule, position, lesson }) => [title, schedule, position, lesson?.done ?? null, Boolean(lesson?.aside)])(workbench.bench.moment()))`;
const waits = () => textOf('#lesson-waits');
await part('an open lesson waits while answers are looked at, and comes back with its ticks', async () => {
  await openText(GOOD); await give(answer(GOOD, 'Eve'));
  await run("document.querySelectorAll('#answer-steps .link')[0].click()"); await settled();
  check(await run(MOMENT) === '["own.asl",[0,0],2,0,true]' && await run("document.querySelectorAll('#s-lesson li.done').length") === 0, 'a run that does the step is not the own one: ' + await run(MOMENT));
  await run("document.getElementById('answer-close').click()"); await settled();
  check(await run(MOMENT) === '["own.asl",[],0,0,false]', 'nothing is done yet: ' + await run(MOMENT));
  for (const name of ['0', '0', '1']) await key(name);
  const before = await run(MOMENT);
  check(before === '["own.asl",[0,0,1],3,1,false]', before);
  await give(answer(GOOD, 'Ada'));
  check(await run(MOMENT) === before && await textOf('#lesson-title') === 'Two steps', 'the answer leaves all as it is: ' + await run(MOMENT));
  await run("document.querySelectorAll('#answer-steps .link')[1].click()"); await settled();
  check(/,18,1,true\]$/.test(await run(MOMENT)) && /the lesson waits: back to your run/.test(await waits()), 'what is looked at ticks nothing: ' + await run(MOMENT));
  await run("document.getElementById('answer-close').click()"); await settled();
  check(await run(MOMENT) === before && await waits() === '', 'it comes back when the answers are closed: ' + await run(MOMENT));
  await key('u'); await settled();
  check(/,18,1,true\]$/.test(await run(MOMENT)), 'undo goes to what was looked at: ' + await run(MOMENT));
  await key('u'); await settled();
  check(await run(MOMENT) === before, 'and before that: ' + await run(MOMENT));
  await give(answer(GOOD, 'Bob')); await run("document.querySelectorAll('#answer-steps .link')[0].click()"); await settled();
  await key('S'); await key('Enter'); await settled();
  check(await run(MOMENT) === before, 'by key: ' + await run(MOMENT));
  for (const i of [0, 1]) { await run(`document.querySelectorAll('#answer-steps .link')[${i}].click()`); await settled(); }
  await run("document.querySelector('[data-keep=lesson-back]').click()"); await settled();
  check(await run(MOMENT) === before, 'after two that were looked at: ' + await run(MOMENT));
  await browser.size(1280, 720); await key('L'); await run("document.querySelectorAll('#answer-steps .link')[0].click()"); await settled();
  await until(() => inSight('[data-keep=lesson-back]'), 'in a lecture the way back is in sight');
  await browser.size(1400, 1000);
});

await part('a run that is looked at says whose it is, and leads to the next one and back', async () => {
  const looking = () => textOf('#looking:not([hidden])'), press = what => run(`document.querySelector('[data-keep=look-${what}]').click()`).then(settled);
  await browser.size(1280, 800);
  await openText(GOOD);
  for (const [by, steps] of [['Ada', DONE], ['Bob', [OTHER + DONE[0], DONE[1].replace('two', 'one')]], ['Kim', [DONE[0], DONE[1] + 'tried\n']]]) await give(answer(GOOD, by, steps));
  check(await looking() === '', 'nothing is looked at');
  await run("document.querySelector('[data-keep=answer-of-0]').click()"); await calm(); await press(0);
  const seen = [await looking()], ended = [];
  for (let i = 0; i < 5; i++) { await press('next'); seen.push(await looking()); ended.push(await run('workbench.bench.run.length')); }
  const rest = ' the next run back to the answers';
  check(String(seen) === String(['Ada, step 1 of 2: ✓ done' + rest, 'Ada, step 2 of 2: ✓ done' + rest, 'Bob, step 1 of 2: ✓ done, with a changed text' + rest,
    'Bob, step 2 of 2: ✕ not done, what was handed in does not do it' + rest, 'Kim, step 1 of 2: ✓ done' + rest, 'Kim, step 2 of 2: ✓ done' + rest]), seen.join(' / '));
  check(String(ended) === '18,2,18,2,18' && await run("document.querySelector('[data-keep=look-next]').disabled"), `their runs: ${ended}; the last has no next one`);
  await until("(e => { const { top, bottom } = e.getBoundingClientRect(); return top >= document.querySelector('header').getBoundingClientRect().bottom && bottom <= innerHeight; })(document.getElementById('looking'))", 'the line is in sight');
  await press('back');
  check(await run("document.activeElement.dataset.keep") === 'answer-of-2' && await inSight('[data-keep=answer-of-2]'), 'back at the line of the answer');
  check(await run("(e => e.getBoundingClientRect().top >= document.querySelector('header').getBoundingClientRect().bottom)(document.activeElement)"), 'which the header does not cover');
  await key('Escape'); await run('document.activeElement.blur()'); await key('c'); await settled();
  check(await looking() === '', 'another run is nobody\'s: ' + await looking());
  await key('u'); await settled(); check(/^Kim, step 2 of 2/.test(await looking()), 'his own is his again: ' + await looking());
  await key('ArrowLeft'); check(/^Kim, step 2 of 2/.test(await looking()), 'also at an earlier step: ' + await looking());
  const TEXT = text => `(() => { const t = document.getElementById('text'); t.value = ${text}; t.dispatchEvent(new Event('input')); })()`;
  for (const [what, change] of [['k', () => key('k')], ['threads', () => key('t')], ['text', () => run(TEXT("t.value + '\\n'"))]]) {
    await change(); await settled();
    check(await looking() === '', `with another ${what} it is nobody's: ` + await looking());
    await key('u'); await settled();
    check(/^Kim, step 2 of 2/.test(await looking()), `undo of another ${what}: ` + await looking());
  }
  await open(); await give(answer(GOOD, 'Lea').replace(/\nstep 2\n[^]*end answer/, '\nend answer')); await press(0);
  check(/^Lea, step 1 of 2: ✓ done/.test(await looking()), 'one step alone was handed in: ' + await looking());
  const schedule = await run('String(workbench.bench.run.schedule)');
  await run("document.getElementById('answer-close').click()"); await settled();
  check(await looking() === '' && await run("document.getElementById('s-answer').hidden") && await run('String(workbench.bench.run.schedule)') === schedule, 'closed, it is nobody\'s: ' + await looking());
  await browser.size(1400, 1000);
});

async function reload() {
  await run('window.isOld = true, setTimeout(() => location.reload()), 1');
  await until(`!window.isOld && ${READY}`, 'the page is loaded anew'); await calm();
}
await part('lessons that were opened are there after a reload, also while an answer is looked at', async () => {
  await openText(GOOD); await run(`workbench.loadFile('b.lesson', new TextEncoder().encode(${JSON.stringify(edit('lesson Two steps', 'lesson Another'))}))`); await calm();
  await run("workbench.bench.load({ text: 'fn main(t) { return t; }', kind: 'asl', title: 'a.asl', lesson: null })"); await calm();
  await reload(); await key('j');
  const listed = async () => String(await run("[...document.querySelectorAll('#dialog .lessons li > .link:first-child')].slice(8).map(e => e.textContent)"));
  check(await listed() === 'Two steps,Another', 'the list has them: ' + await listed());
  await run("document.querySelectorAll('#dialog .lessons li > .link:first-child')[8].click()"); await settled();
  for (const name of ['0', '0']) await key(name);
  await give(answer(GOOD, 'Ada')); await run("document.querySelectorAll('#answer-steps .link')[1].click()"); await settled();
  const before = await run(MOMENT);
  await reload();
  check(before === await run(MOMENT) && /,18,1,true\]$/.test(before) && /waits/.test(await waits()), `${before} / ${await run(MOMENT)}`);
  await run("document.querySelector('[data-keep=lesson-back]').click()"); await settled();
  check(await run(MOMENT) === '["own.asl",[0,0],2,1,false]', 'and its run: ' + await run(MOMENT));
});

const COPIED = "window.copied = '', Object.defineProperty(navigator, 'clipboard', { configurable: true, value: { writeText: async text => { window.copied = text; } } }), 1";
await part('many answers: who has which steps, a sum, a table, and details where they are asked for', async () => {
  const names = Array.from({ length: 60 }, (_, i) => 'Student ' + i), text = (by, i) => (i === 40 ? answer(GOOD, by, [OTHER + DONE[0], DONE[1]])
    : i === 7 ? answer(GOOD, by, [DONE[0].replace('0*2', '1*2'), DONE[1]]) : i === 9 ? answer(GOOD, '=1+1') : answer(GOOD, by));
  await browser.size(1280, 720);
  await openText(GOOD);
  await run(`workbench.openFiles(${JSON.stringify(names.map((by, i) => [`s${i}.answer`, text(by, i)]))}.map(([name, text]) => ({ name, bytes: new TextEncoder().encode(text) })))`); await calm();
  check(/^59 of 60 have all steps, 1 of them with a changed text\./.test(await textOf('#answers-sum')), await textOf('#answers-sum'));
  const marks = await run("[...document.querySelectorAll('#answers .marks')].map(e => e.textContent)");
  check(marks[7] === '✕✓' && marks.filter(is => is === '✓✓').length === 59, 'marks: ' + marks);
  await run(COPIED); await run("document.querySelector('[data-keep=answers-copy]').click()"); await calm();
  const rows = (await run('window.copied')).split('\n');
  check(rows[0] === 'name\tfile\tlesson\tstep 1\tstep 2\tdone\tof\ttold' && rows[8] === 'Student 7\ts7.answer\tTwo steps\t✕\t✓\t1\t2\t1 of 2 steps' && rows.length === 62, `${rows[0]} / ${rows[8]}`);
  check(rows[10].startsWith("'=1+1\t") && rows[41].endsWith('all 2 steps, 1 with a changed text'), `${rows[10]} / ${rows[41]}`);
  const pressed = i => run(`(() => { const e = document.querySelector('[data-keep=answer-of-${i}]'); e.scrollIntoView({ block: 'end' }); const { top } = e.getBoundingClientRect(); e.click(); return top; })()`);
  for (const i of [40, 45, 3]) {
    await pressed(i); await calm();
    check(await run(`document.querySelector('#answer-steps').closest('li').querySelector('button').textContent`) === (i === 9 ? '=1+1' : 'Student ' + i), 'details below the line ' + i);
    check(await inSight(`[data-keep=answer-of-${i}]`) && await inSight('#answer-steps'), `they are in sight: ${i}`);
  }
  await pressed(3); await calm();
  check(await textOf('#answer-steps') === '', 'pressed again, they are closed');
  await pressed(40); await calm();
  await run("document.querySelectorAll('#answer-steps .link')[0].click()"); await settled();
  await until("Math.abs(document.getElementById('s-time').getBoundingClientRect().top) < 80", 'the run is in sight');
  check(/Student 40, step 1/.test(await textOf('#note')), await textOf('#note'));
  await browser.size(1400, 1000);
});

await part('marks, sum and table: what was not handed in, and answers to other lessons', async () => {
  const three = edit('answer it is done', 'step third\nuntil all threads have ended\nanswer it is done').replaceAll('Two steps', 'Three steps'), other = edit('until all threads have ended', 'until k is 1');
  const half = answer(GOOD, 'Half').replace(/\nstep 2\n[^]*end answer/, '\nend answer'), all = answer(three, 'Three').replaceAll('Two steps', 'Three steps').replace('end answer', `step 3\n${DONE[1].replace('choice two\n', '')}end answer`);
  await openText(GOOD);
  for (const [name, text] of [['half', half], ['three', all], ['other', answer(other, 'Other')], ['tabs', answer(GOOD, 'a\tb  c\td')], ['tried', answer(GOOD, 'Tried', [DONE[0], 'k 1\nthreads 2\nsteps 0*3\nat 3\ntried\n'])]]) await give(text, name + '.answer');
  const marks = String(await run("[...document.querySelectorAll('#answers .marks')].map(e => e.textContent)"));
  check(marks === '✓–,○○○,○○,✓✓,✓✕', 'marks: ' + marks);
  check(/^2 of 5 have all steps\. /.test(await textOf('#answers-sum')), 'an answer to another lesson does not count: ' + await textOf('#answers-sum'));
  check(/✕ 1 of 2 steps done, one tried$/.test(await lastLine()), await lastLine());
  await run(COPIED); await run("document.querySelector('[data-keep=answers-copy]').click()"); await calm();
  const rows = (await run('window.copied')).split('\n').map(row => row.split('\t').join('|'));
  const wanted = ['name|file|lesson|step 1|step 2|step 3|done|of|told', 'Half|half.answer|Two steps|✓|–||1|2|1 of 2 steps', 'Three|three.answer|Three steps|○|○|○|3|3|by the lesson that came with it: all 3 steps',
    'Other|other.answer|Two steps|○|○||2|2|not your lesson: all 2 steps', 'a b c d|tabs.answer|Two steps|✓|✓||2|2|all 2 steps', 'Tried|tried.answer|Two steps|✓|✕||1|2|1 of 2 steps done, one tried', ''];
  wanted.forEach((row, i) => check(rows[i] === row, `row ${i}: ${rows[i]}, not ${row}`));
});

await part('what is cut off is told as that, and once; a position behind the last step is refused', async () => {
  const whole = answer(GOOD, 'Cut');
  await openText(GOOD);
  await give(whole.slice(0, whole.indexOf('step 2\n')));
  check(/✕ 1 of 2 steps; the file has no last line “end answer”: it is cut off, or was saved by an older page$/.test(await lastLine()), 'between two steps: ' + await lastLine());
  await give(whole.replace('\nend answer\n', ''));
  check(/✓ all 2 steps$/.test(await lastLine()), 'a whole one of an older page: ' + await lastLine());
  const cases = [[whole.slice(0, whole.indexOf('k 1\nthreads')), ['Line 3: the file is cut off before end lesson.lesson text']],
    [whole.slice(0, whole.indexOf('choice two\n', whole.indexOf('step 2\n')) + 4), ['Line 40: "choi" is no word of an answer; the file ends here, without end answer.choi']],
    [whole.replace('at 18', 'at 4000'), ['Line 39: the step has 18 steps, so "at" is a number from 0 to 18.at 4000']],
    [whole + 'step 1\n', [`Line ${whole.split('\n').length}: nothing stands behind end answer.step 1`]], [whole.replace('choice two\n\n', 'choice two\nmissed x\n\n'), ['Line 41: this is no number of wrong choices.missed x']]];
  for (const [text, wanted] of cases) {
    await give(text);
    check(String(await refusals()) === String(wanted), `${wanted}: ${await refusals()}`);
    await shut();
  }
});

await part('wrong choices are counted over a reload, and handed in; a choice that is taken is shown', async () => {
  await openText(edit('until all threads have ended\n', '').replace('answer it', 'step third\nuntil all threads have ended\nanswer it'));
  for (const name of ['0', '0']) await key(name);
  await run("document.querySelectorAll('.choices button')[0].click()"); await settled();
  await reload();
  check(/No, it is another one \(1 wrong so far\)/.test(await textOf('.choices')), 'after a reload: ' + await textOf('.choices'));
  await run("document.querySelectorAll('.choices button')[1].click()"); await settled();
  check(/^✓ second {2}Chosen: two/.test(await textOf('#lesson-steps li:nth-child(2)')), await textOf('#lesson-steps li:nth-child(2)'));
  await until("/&done=2&did=/.test(location.hash)"); await open(await run('location.hash')); await settled();
  check(/Chosen: two/.test(await textOf('#lesson-steps li:nth-child(2)')), 'by the link: ' + await textOf('#lesson-steps'));
  const link = await handedIn('Ada'), text = unpack(link.replace('#answer=', ''));
  check(/\nchoice two\nmissed 1\n/.test(text), text.slice(-120));
  await open(link); await settled();
  check(/Chosen: two \(1 wrong choice\)/.test(await textOf('#answer-steps')), await textOf('#answer-steps'));
});

await part('names keep their letters, and a file that is saved says its name', async () => {
  await openText(GOOD); await key('H');
  await run(`(() => { const e = document.getElementById('handed-by'); e.value = 'Zoë Müller / Łódź'; e.dispatchEvent(new Event('input')); })()`);
  await run("window.savedAs = '', HTMLAnchorElement.prototype.click = function () { window.savedAs = this.download; }, 1");
  await run("document.getElementById('hand-file').click()"); await calm();
  check(await run('window.savedAs') === 'Two-steps-Zoë-Müller-Łódź.answer' && /Saved as Two-steps-Zoë-Müller-Łódź\.answer\./.test(await openDialog()), `${await run('window.savedAs')} / ${await openDialog()}`);
  await shut();
  await open();
  await give(answer(GOOD, 'Zoë Müller'), 'first.answer'); await give(answer(GOOD, 'Zoë Müller', [DONE[0], DONE[1].replace('two', 'one')]), 'second.answer'); await give(answer(GOOD, '').replace('by \n', ''), 'third.answer');
  check(/^Zoë Müller \(first\.answer\).*,Zoë Müller \(second\.answer\).*,no name \(third\.answer\) /.test(String(await summaries())), String(await summaries()));
  const marks = String(await run("[...document.querySelectorAll('#answers .marks')].map(e => e.textContent)"));
  check(marks === '○○,○✕,○○', 'no tick by a lesson that is not known: ' + marks);
  await open();
  for (const name of ['first.answer', 'first.answer']) await give(answer(GOOD, 'Eve'), name);
  check((await summaries()).length === 1, 'the first file takes its own place: ' + await summaries());
  await open();
  for (const name of ['a.answer', 'b.answer', 'c.answer', 'same.answer', 'same.answer', 'copy.answer']) await give(answer(GOOD, 'Eve'), name);
  check((await summaries()).length === 5, 'the same file takes the place of itself, a copy of it does not: ' + await summaries());
});
