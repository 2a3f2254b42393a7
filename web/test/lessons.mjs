// The lessons, each done to its end by the keys that its file has for each step.
import { readFileSync, readdirSync } from 'node:fs';
import { fileURLToPath } from 'node:url';
import { browser, check, key, open, part, run, settled, textOf } from './kit.mjs';
import { readLesson } from '../src/lessontext.js';
import { EXAMPLES } from './paths.mjs';

const LESSONS = fileURLToPath(new URL('../lessons/', import.meta.url));

const done = () => run("document.querySelectorAll('#s-lesson:not([hidden]) li.done').length");
// Goes to an element by Tab, and says how many presses that took.
async function tabTo(selector, most = 90) {
  for (let i = 0; i <= most; i++) {
    if (await run(`document.activeElement.matches(${JSON.stringify(selector)})`)) return i;
    await browser.key('Tab');
  }
  return -1;
}

async function openLesson(number) {
  await key('j');
  const presses = await tabTo(`#dialog li:nth-child(${number}) button`, 12);
  check(presses >= 0, `lesson ${number}: its button is reached`);
  await key('Enter'); await settled();
  check((await textOf('#lesson-title')).startsWith(`Lesson ${number}:`), `lesson ${number} opens`);
}

// Plays a step by the keys that its file has for it.
const NAMED = { Left: 'ArrowLeft', Right: 'ArrowRight', Up: 'ArrowUp', Down: 'ArrowDown' };
let pressed = 0;
async function press(word, right) {
  const [, name, times = 1] = /^(.+?)(?:\*(\d+))?$/.exec(word), focus = FOCUS[name] || /^list\d+$/.test(name) && `[data-list="${name.slice(4)}"]`;
  if (focus) {
    if (name === 'right') {
      const shown = right.replaceAll('`', ''); // (what stands between backticks is shown as code)
      const found = await run(`[...document.querySelectorAll('.choices button')].filter(b => b.textContent === ${JSON.stringify(shown)}).map(b => { b.dataset.right = 1; }).length`);
      check(found === 1, `${found} choices read ${shown}`);
    }
    await run("document.querySelector('header button').focus()"); // (Firefox without a window loses its keys where Tab goes past the page's end)
    check(await tabTo(focus, 160) >= 0, `${focus} is reached`);
    if (!name.startsWith('list')) { await key('Enter'); await settled(); }
    return;
  }
  for (let i = 0; i < times; i++) { await key(NAMED[name] || name); pressed++; }
}
const FOCUS = { open: '[data-keep="lesson-open"]', right: '[data-right="1"]' };
async function play(step) {
  for (const line of step.keys) {
    if (line.startsWith('type ')) { await browser.typed(line.slice(5) + '\n'); await settled(); await settled(); continue; }
    for (const word of line.split(/\s+/)) await press(word, step.right);
    await settled();
  }
  await settled();
}

const examples = Object.fromEntries(readdirSync(EXAMPLES).filter(name => /\.as[lm]$/.test(name))
  .map(name => [name, { text: readFileSync(EXAMPLES + name, 'utf8'), kind: name.slice(-3) }]));
export const FILES = readdirSync(LESSONS).filter(name => name.endsWith('.lesson')).sort().map(name => readFileSync(LESSONS + name, 'utf8'));

await part('every lesson, to its end, by the keys of its own file', async () => {
  await open();
  for (const [i, file] of FILES.entries()) {
    const { lesson, refusals } = readLesson(file, examples);
    check(lesson, `lesson ${i + 1}: ${JSON.stringify(refusals)}`);
    await openLesson(i + 1);
    check(await done() === 0, `lesson ${i + 1} begins with nothing done`);
    pressed = 0;
    for (const [n, step] of lesson.steps.entries()) {
      check(!step.keys.length || await done() <= n, `lesson ${i + 1}: step ${n + 1} is done before it is played`);
      await play(step);
      check(await done() > n, `lesson ${i + 1}: step ${n + 1} is done: ${await textOf('#say')} ${await textOf('#own-verdict')} ${await textOf('#complaint')}`);
    }
    check(await textOf('#lesson-end') === 'Done. ' + lesson.answer.replaceAll('`', ''), `lesson ${i + 1}: ${await textOf('#lesson-end')}`);
    if (i === 2) check(pressed <= 15, `lesson 3 takes ${pressed} keys`);
    console.log(`       lesson ${i + 1}: ${pressed} keys`);
  }
});

await part('each control that is pressed keeps the focus', async () => {
  await open('#example=counter.asl&k=3&threads=2');
  check(await tabTo('[data-step="1"]') >= 0, 'a lane is reached');
  for (const name of ['Enter', ' ', 'Enter']) await key(name);
  check(await run("document.activeElement.dataset.step === '1'") && await run("workbench.bench.run.length") === 3, 'a lane keeps the focus, and steps');
  check(await tabTo('#sections button.k') >= 0, 'a k is reached');
  await key('Enter'); await settled();
  check(await run("document.activeElement.matches('button.k') && workbench.bench.k === 0"), 'a k keeps the focus, and is chosen');
  await open('#lesson=1');
  check(await tabTo('#lesson-steps button') >= 0, 'a hint is reached');
  await key('Enter');
  check(/frame begins/.test(await textOf('#lesson-steps em')) && await run("document.activeElement.ariaExpanded") === 'true', 'a hint keeps the focus, and is told');
});

// The last part: behind the last control the keys may be the browser's own.
await part('each control is reached by Tab', async () => {
  await open('#example=counter.asl&k=3&threads=2');
  const wanted = await run(`[...document.querySelectorAll('button,select,input,textarea,summary')].filter(e => !e.disabled && e.checkVisibility())
    .map((e, i) => { e.dataset.tried = i; return i; })`);
  const seen = new Set();
  await run("document.activeElement.blur()");
  for (let i = 0; i < wanted.length + 20; i++) {
    await browser.key('Tab');
    seen.add(await run("Number(document.activeElement.dataset.tried ?? -1)"));
  }
  // (a window that is high enough for the header to stay at its top)
  await run("document.querySelector('#example').focus(); scrollTo(0, 9999); [...document.querySelectorAll('main button')].findLast(e => !e.disabled && e.checkVisibility()).focus()");
  const under = [];
  for (let i = 0; i < 30; i++) {
    await browser.key('Tab', true);
    under.push(await run("(e => e.closest('main') && e.getBoundingClientRect().height < 300 && e.getBoundingClientRect().top < document.querySelector('header').getBoundingClientRect().bottom - 1 ? e.outerHTML.slice(0, 60) : '')(document.activeElement)"));
  }
  check(under.every(words => !words), 'the header covers ' + under.filter(Boolean).join());
  const missed = wanted.filter(i => !seen.has(i));
  check(missed.length === 0, 'not reached: ' + await run(`${JSON.stringify(missed)}.map(i => document.querySelector('[data-tried="' + i + '"]').outerHTML.slice(0, 80)).join()`));
});
