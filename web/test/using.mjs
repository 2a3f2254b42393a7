// The mouse, typing, keys, and refusals at their place.
import { readFileSync } from 'node:fs';
import { at, browser, calm, check, key, open, part, run, settled, textOf } from './kit.mjs';
import { EXAMPLES } from './paths.mjs';
import { type } from './runs.mjs';

await part('the mouse: lane heads, events, buttons, a dropped file', async () => {
  await open('#example=counter.asl&k=3&threads=2');
  const click = async target => {
    const [x, y] = await run(`(() => { const b = (${target}).getBoundingClientRect(); return [b.left + b.width / 2, b.top + b.height / 2]; })()`);
    await browser.click(x, y);
    await calm();
  };
  for (const t of [0, 0, 1, 1]) await click(`document.querySelector('[data-step="${t}"]')`);
  check(String(await at()) === '4,4' && await run("workbench.bench.last.reply") === 'blocked', 'heads step');
  await click("document.querySelectorAll('.mark')[1]"); check((await at())[0] === 2, 'an event is clicked');
  await click("document.querySelector('#forward')"); check((await at())[0] === 3, 'forward');
  await click("document.querySelector('#robin')"); check((await at())[0] > 10, 'round robin');
  await settled(); // what is compared above the table has come, and moves it no more
  await click("document.querySelectorAll('#sections button.k')[0]"); check(await run('workbench.bench.k') === 0, 'a column of the table of k');
  await run(`(() => { const given = new DataTransfer(); given.items.add(new File([${JSON.stringify(readFileSync(EXAMPLES + 'nested.asl', 'utf8'))}], 'mine.asl'));
    dispatchEvent(new DragEvent('drop', { dataTransfer: given, cancelable: true })); })()`);
  await settled(); await settled();
  check(await run('workbench.bench.title') === 'mine.asl', 'a dropped file');
});

await part('the slide goes to each event: pressed at its ends and between, and moved on', async () => {
  await open('#example=counter.asl&k=3&threads=2');
  await key('r');
  const [length] = await at(), half = length >> 1;
  const is = async (position, words) => {
    check(String(await at()) === `${position},${length}`, `${words}: ${await at()}`);
    check(await textOf('#position') === `after ${position} of ${length} events` && await run("document.getElementById('slide').value") === String(position), `${words}: it says ${await textOf('#position')}`);
  };
  const press = async part => {
    const [left, right, y] = await run("(() => { const b = document.getElementById('slide').getBoundingClientRect(); return [b.left, b.right, b.top + b.height / 2]; })()");
    await browser.click(left + 2 + (right - left - 4) * part, y);
    await calm();
  };
  await press(0); await is(0, 'its left end');
  await press(1); await is(length, 'its right end');
  await press(0.5); check(Math.abs((await at())[0] - half) <= 1, `its middle: ${await at()}`);
  check(await run("document.activeElement.id") === 'slide', 'it has the keys');
  const [middle] = await at();
  await key('ArrowRight'); await is(middle + 1, 'an arrow on it is one event');
  for (let position = 0; position <= length; position++) {
    await run(`(() => { const e = document.getElementById('slide'); e.value = ${position}; e.dispatchEvent(new Event('input', { bubbles: true })); })()`);
    await calm(); await is(position, `moved to ${position}`);
  }
});

await part('typing is painted at once and compiled soon', async () => {
  await open('#example=counter.asl&k=3&threads=2&steps=0011&at=4');
  await key('e');
  await run("document.getElementById('text').setSelectionRange(0, 0)");
  await browser.insertText('global more;');
  check(await run("document.querySelector('#paint .row').textContent") === 'global more;global count;', 'painted');
  await key('Escape'); await settled();
  check(await run('workbench.bench.program.globals.length') === 2, 'compiled');
});

await part('keys', async () => {
  await open('#example=queue.asl&k=3&threads=3');
  await key('n');
  check(await run("workbench.bench.last.reply === 'blocked'"), 'n: until blocked');
  check(await run("/blocked.*it asks X \\(write\\) at leaf/.test(document.getElementById('say').textContent)"), 'sentence of the blocked step');
  check(await run("document.querySelectorAll('#locks .mode.clash').length > 0 && document.querySelectorAll('#locks .wish.no').length > 0"), 'the clash is framed');
  const [blocked] = await at();
  await key('h');
  check((await at())[0] < blocked, 'h: to the holder');
  await key('b'); check((await at())[0] === blocked, 'b');
  await key('End'); await key('r');
  check(await run("workbench.bench.state.threads.every(t => t.status === 'done')"), 'r: round robin to the end');
  check(await run("workbench.bench.run.events.every(e => e.reply !== 'ended')"), 'no step of ended threads');
  await key('Home'); check((await at())[0] === 0, 'Home');
  await key('ArrowRight', true); check((await at())[0] === 10, 'Shift right');
  await key('o'); check(await run("workbench.bench.last.reply === 'out'"), 'o');
  await key('['); await key(']');
  await key('K'); check(await run('workbench.bench.k') === 2, 'K');
  await key('k'); check(await run('workbench.bench.k') === 3, 'k');
  await key('t'); check(await run('workbench.bench.threads') === 4, 't');
  await key('T'); check(await run('workbench.bench.threads') === 3, 'T');
  await key('d'); check(await run("document.documentElement.dataset.dark") === '1', 'd'); await key('d');
  await key('A'); check(await run('workbench.textSize()') === 17, 'A'); await key('a');
  await key('L'); check(await run("document.body.classList.contains('lecture')"), 'L'); await key('L');
  await key('m'); check(await run("document.body.classList.contains('no-instructions')"), 'm'); await key('m');
  await browser.size(1280, 720); await key('?'); await settled();
  const [first, second] = await run("[...document.querySelectorAll('#dialog .keys table')].map(e => [e, e.querySelector('td')].map(e => e.getBoundingClientRect()).flatMap(r => [r.left, r.top, r.width]).map(Math.round))");
  check(first[1] === second[1] && first[0] + first[2] <= second[0] && first[5] === second[5], `? has two columns, each with room as wide for its keys: ${first} / ${second}`);
  await run("document.getElementById('dialog').close()"); await browser.size(1400, 1000);
  for (const open of ['x', 's', '?']) { await key(open); await settled(); check(await run("document.getElementById('dialog').open"), open); await run("document.getElementById('dialog').close()"); }
  await key('e'); check(await run("document.activeElement.id") === 'text', 'e');
  const steps = (await at())[1]; await key('0'); check((await at())[1] === steps, 'a digit in the editor is text');
  await key('Escape'); check(await run("document.activeElement.id") !== 'text', 'Escape');
});

await part('refusals are shown at their place', async () => {
  await open('#example=counter.asl&k=3&threads=2&steps=0011&at=4');
  const source = readFileSync(EXAMPLES + 'counter.asl', 'utf8');
  const cases = [[source.replace('y = x + one;', 'y = x + 1;'), 8, 13], [source.replace('x = *p;', 'x = *p'), 6, 11], [source.replace('*p = y;', '*p = y   '), 9, 11], [source.replace('*p = y', '*p = z'), 9, 10],
    [source.replace('atomic {', 'atomic { // comment'), 5, 12], [source.replace('return t;\n}', ''), 12, 1], [source.replace('global count;', 'global count; global count;'), 1, 22]];
  for (const [text, line, column] of cases) {
    await type(text);
    const said = await run("document.getElementById('complaint').textContent");
    check(!/; ;/.test(said), 'a semicolon is told by words: ' + said);
    check(said.includes(`Line ${line}, column ${column}:`), `${line}:${column} ${said.slice(0, 60)}`);
    check(await run("workbench.bench.run.length") === 4, 'the run stays');
  }
  await type(source.replace('x = *p;', 'x = *p'));
  check(/`?;`? is missing at the end of this line/.test(await textOf('#complaint')) && await run("document.querySelector('#paint .refused').textContent") === '    x = *p', await textOf('#complaint'));
  for (const [letter, told] of [['ö', 'ö (U+00F6) is not ASCII'], ['“', '“ (U+201C) is not ASCII'], ['😀', '😀 (U+1F600) is not ASCII'], ['\u200B', 'U+200B, which is not seen, is not ASCII'], ['\u00A0', 'U+00A0, which is not seen,']]) {
    await type(source.replace('one = 1', letter + 'one = 1'));
    check((await textOf('#complaint')).includes(`Line 7, column 5: ${told}`), `${letter}: ${(await textOf('#complaint')).slice(0, 90)}`);
  }
  await type(source.replace('x + one', 'one + x'));
  check(await run("document.getElementById('complaint').hidden") && await run('workbench.bench.run.length') === 4, 'compiles again, and the schedule is kept');
  await type('fn main(t) { p = &g; x = *p; return t; } global g;');
  check(await run("document.getElementById('complaint').textContent.includes('no section is open')"), 'access outside a section');
});

await part('more threads while a text is refused', async () => {
  await open('#example=counter.asl&k=3&threads=2&steps=0011&at=4');
  await type('fn main(t) {');
  for (const name of ['t', 't', '2', 'ArrowLeft', 'n']) await key(name);
  check(await run('workbench.bench.threads') === 4 && await run('workbench.bench.run.threads') === 2, 'the run keeps its threads');
  await type(readFileSync(EXAMPLES + 'counter.asl', 'utf8'));
  check(await run('workbench.bench.run.threads') === 4, 'and has those that are wanted once it is made anew');
});
