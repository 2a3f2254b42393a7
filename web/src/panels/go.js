// The bar under the timeline's head that makes a thread go further than a step, the dialog that asks for a line, and breakpoints beside
// the program.
// Tried by web/test/go.mjs.

import { byId, chip, el, renew } from '../dom.js';
import { note, openDialog, tellForbidden } from '../page.js';
import { isForbidden } from '../lessons.js';
import { rows } from './rows.js';
import { backToBreak, breaks, goer, toAtomic, toBreak, toEvent, toggleBreak, toLine, toSectionEnd } from '../go.js';

const asked = { line: '' };
const allowed = go => (isForbidden('go') ? tellForbidden('go') : go());
const told = promise => promise.then(words => { if (words) note(words); });
const goes = { atomic: toAtomic, end: toSectionEnd, event: toEvent, break: toBreak, back: backToBreak };
export const go = (bench, what) => allowed(() => told(goes[what](bench)));
export const goToLine = (bench, line) => allowed(() => told(toLine(bench, line)));

// A breakpoint at the line where the thread stands that goes.
export function breakHere(bench) {
  const thread = goer(bench);
  if (thread >= 0) toggleBreak(bench, bench.names.line(bench.state.threads[thread].pc));
}

// Asks for a line: Enter lets the thread go there; the other button makes it a breakpoint, or none.
export function askLine(bench) {
  const thread = goer(bench);
  if (thread < 0) return note('Nothing to step: all threads have ended.');
  const line = () => { asked.line = byId('line-wanted').value; return Number(asked.line) - 1; };
  const done = act => () => { const wanted = line(); byId('dialog').close(); act(wanted); };
  openDialog('To a line', el('p', { class: 'files' }, el('label', {}, 'line ', el('input', { id: 'line-wanted', type: 'number', min: 1,
    onkeydown: event => { if (event.key === 'Enter') done(wanted => goToLine(bench, wanted))(); } })),
  el('button', { onclick: done(wanted => goToLine(bench, wanted)) }, `Thread ${thread} goes there (Enter)`),
  el('button', { onclick: done(wanted => toggleBreak(bench, wanted) || note('That line has no instruction.')) }, 'Breakpoint')));
  byId('line-wanted').value = asked.line;
  byId('line-wanted').focus();
  byId('line-wanted').select();
}

const button = (bench, id, words, title, act, off) => el('button', { id, 'data-keep': id, title, disabled: off, onclick: act }, words);
export function drawGo(bench) {
  const box = byId('go'), thread = goer(bench), off = thread < 0 || isForbidden('go');
  renew(box, el('span', { class: 'small soft' }, thread < 0 ? 'all have ended ' : [chip(thread), ' goes ']),
    button(bench, 'go-atomic', 'to its next atomic', 'To its next atomic (g)', () => go(bench, 'atomic'), off),
    button(bench, 'go-end', 'to its section’s end', 'To the end of its section (G)', () => go(bench, 'end'), off),
    button(bench, 'go-event', 'to output, wait or fault', 'To its next event that is not “ran” (Y)', () => go(bench, 'event'), off),
    button(bench, 'go-line', 'to a line ..', 'To a line (I), or click left of a line’s number', () => askLine(bench), off),
    el('span', { class: 'small soft' }, ' all go '),
    button(bench, 'go-break', 'to a breakpoint', 'All threads to a breakpoint (.); p or a click on a line’s number makes one',
      () => go(bench, 'break'), !breaks.size || isForbidden('go')),
    button(bench, 'go-back', 'back to one', 'Back to a breakpoint (,)', () => go(bench, 'back'), !breaks.size));
}

// A dot before the number of a line with a breakpoint. Rows keep what is put there by hand when they get other lines.
export function drawBreaks() {
  [...byId('numbers').children].forEach((row, i) => row.classList.toggle('break', breaks.has(rows.from + i)));
}

// Clicks beside the program: left of a number the thread goes to that line, on a number there is a breakpoint.
export function listenToGutter(bench) {
  const listen = (box, act) => byId(box).addEventListener('click', event => {
    const i = [...byId(box).children].indexOf(event.target.closest('.row'));
    if (i >= 0) act(rows.from + i);
  });
  listen('gutter', line => goToLine(bench, line));
  listen('numbers', line => toggleBreak(bench, line));
}
