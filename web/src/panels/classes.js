// Why objects are one class: what the toolchain says of it, beside the program. A line that is named there is a button, which marks that
// line of the text.
// Tried by web/test/classes.mjs.

import { byId, el, renew, setText, withCode } from '../dom.js';
import { unlessDropped } from '../aside.js';
import { classRows, firstJoined, lineOf, piecesOf } from '../classes.js';
import { pointNowhere, pointTo } from '../pointed.js';
import { note } from '../page.js';
import { listAt } from '../program.js';
import { sectionAt } from '../stretches.js';

const panel = { number: -1, all: false, told: null, of: '', at: '', enter: false, from: '' };

// What opens it, beside a class.
export const classLink = (bench, number, keep, words = 'one class?') => (bench.kind !== 'asl' ? null
  : el('button', { class: 'link', 'data-keep': `class-${keep}-${number}`, title: `Why the objects of class ${number} are one class (X)`,
    onclick: () => openClass(bench, number) }, words));

export function openClass(bench, number, all = false) {
  if (panel.number < 0) panel.from = document.activeElement?.dataset.keep || '';
  Object.assign(panel, { number, all, enter: true });
  if (!all) panel.at = '';
  return unlessDropped(ask(bench));
}
async function ask(bench) {
  const { number, all } = panel, of = bench.builtText, told = await classRows(bench, number, all);
  if (number !== panel.number || all !== panel.all) return;
  Object.assign(panel, { told, of });
  bench.changed('classes');
}
// Answers whether there was something to close.
export function closeClass(bench) {
  if (panel.number < 0) return false;
  const within = byId('s-classes').contains(document.activeElement);
  Object.assign(panel, { number: -1, told: null });
  pointNowhere();
  bench.changed('classes');
  if (within) document.querySelector(`[data-keep="${panel.from || 'none'}"]`)?.focus({ preventScroll: true });
  return true;
}

// Of the event that is shown the class where it is blocked, else the first that its section locks; nothing where there is none.
function classHere(bench) {
  const { program, last, position, run } = bench;
  const clash = last?.reply === 'blocked' && run.request(position - 1, last.thread).clashes.find(({ node }) => node.startsWith('class '));
  if (clash) return Number(clash.node.slice(6));
  const section = last && sectionAt(bench.stretches, last.thread, position), pc = section ? section.pc : last ? last.pc : -1;
  return (pc >= 0 && program.lists[listAt(program, pc)] || []).find(lock => lock.kind === 'class')?.class;
}
// That class, or the first that joins something; behind it the next one, and so on.
export async function nextClass(bench) {
  const count = bench.program?.classes || 0;
  if (!count) return note('The program has no class.');
  return openClass(bench, panel.number >= 0 ? (panel.number + 1) % count
    : classHere(bench) ?? await unlessDropped(firstJoined(bench)) ?? 0);
}
const alone = row => (/ line \d+/.test(row) ? 'All its objects are made at this line; there is nothing to join.'
  : 'It has this one member; there is nothing to join.');

function mark(bench, place, line) {
  panel.at = place;
  pointTo(line, bench.text);
  bench.changed('point');
  drawClasses(bench);
}
// A line of the answer as a button, a whole row of a chain or the words `line N`.
const lineButton = (bench, place, line, words, look) => el('button', { class: look, 'data-keep': 'class-line-' + place,
  'aria-current': panel.at === place ? 'true' : null, title: `Mark line ${line + 1} in the program`,
  onclick: () => mark(bench, place, line) }, words);

function rowOf(bench, row, i) {
  const pieces = piecesOf(row);
  const chain = /^ {6}(line \d+ +)(.*?)( {2,}.*|$)/.exec(row);
  if (chain) return el('li', {}, lineButton(bench, String(i), lineOf(pieces[1]),
    chain.slice(1).map(part => el('span', {}, withCode(part))), 'link-of'));
  const depth = row.search(/\S/);
  return el('li', { class: depth ? 'why-' + depth : 'members' }, pieces.map((piece, n) => (n % 2
    ? lineButton(bench, `${i}-${n}`, lineOf(piece), piece, 'link') : withCode(n ? piece : piece.trimStart()))));
}

function content(bench) {
  const { told, number, all } = panel;
  if (!told) return 'asked ..';
  if (told.words) return el('p', {}, withCode(told.words));
  return [el('ol', {}, told.rows.map((row, i) => rowOf(bench, row, i))),
    told.rows.length < 2 ? el('p', { class: 'soft' }, alone(told.rows[0])) : null,
    told.more && !all ? el('button', { 'data-keep': 'class-all', onclick: () => openClass(bench, number, true) },
      'Show all members') : null];
}

// By key from line to line.
function onKey(bench, event) {
  const way = { ArrowDown: 1, ArrowUp: -1 }[event.key], all = [...byId('class-rows').querySelectorAll('button')];
  if (event.key === 'Escape') { event.stopPropagation(); closeClass(bench); }
  if (!way) return;
  const next = all[all.indexOf(document.activeElement) + way];
  event.preventDefault();
  event.stopPropagation();
  next?.focus();
  next?.click();
}
export function listenToClasses(bench) {
  byId('s-classes').addEventListener('keydown', event => onKey(bench, event));
  byId('class-next').addEventListener('click', () => nextClass(bench));
  byId('class-close').addEventListener('click', () => closeClass(bench));
}

export function drawClasses(bench) {
  const box = byId('s-classes'), on = panel.number >= 0 && Boolean(bench.program);
  if (on && panel.told && panel.of !== bench.builtText) { panel.told = null; unlessDropped(ask(bench)); }
  box.hidden = !on;
  document.body.classList.toggle('with-classes', on);
  if (!on) return;
  setText(byId('class-name'), 'class ' + panel.number);
  byId('class-next').disabled = bench.program.classes < 2;
  renew(byId('class-rows'), content(bench));
  if (!panel.enter || !panel.told) return;
  panel.enter = false;
  const first = byId('class-rows').querySelector('.link-of') || byId('class-rows').querySelector('button') || byId('class-close');
  Promise.resolve().then(() => { // (what is drawn keeps the focus where it was)
    first.focus({ preventScroll: true });
    if (first.dataset.keep?.startsWith('class-line')) first.click();
    box.scrollIntoView({ block: 'nearest' });
  });
}
