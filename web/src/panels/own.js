// Lists by hand: beside a source the list of each section, to be edited, in the assembly's words and in those of the source; and
// whether they are enough, first by a word, and which lock is missing on request: who learns is to find it himself.
// Tried by web/test/own.mjs.

import { byId, el, renew, setText, withCode } from '../dom.js';
import { acquireOf, functionAt, readProgram } from '../program.js';
import { partsOfText } from '../own.js';
import { verdictOf } from '../verdict.js';
import { chosen, isForbidden, isOpened, lesson, presentStep } from '../lessons.js';
import { openingAt } from '../lessontext.js';

const shown = { is: false, which: '', were: false, enter: false };
export const showOwn = is => { shown.is = is; };
export const toggleOwn = bench => { shown.is = !shown.is; bench.changed('own'); };
// Into the first list of one's own, or the first of all, once it is drawn; Escape leaves it.
export function enterOwn(bench) {
  Object.assign(shown, { is: true, enter: true });
  bench.changed('own');
}
function enter(bench) {
  shown.enter = false;
  const areas = [...byId('own-lists').querySelectorAll('textarea')];
  const area = areas.find(({ dataset }) => bench.own[dataset.list] !== undefined) || areas[0];
  area?.focus();
  area?.setSelectionRange(area.value.length, area.value.length);
}

// The lists as they stand: those of one's own, else the inferred ones.
const listsOf = bench => partsOfText(bench.inferred).lists.map((list, s) => bench.own[s] ?? list);

// A lock in the words of the source; nothing where the line is no lock of this program.
function inWords(bench, line, f) {
  try {
    const [lock] = readProgram('list\n' + line.trim().replace(/[\s,]+/g, ' ')).lists[0];
    if (!/^(read|write)$/.test(lock.effect)) return '?';
    const words = bench.names.lock(lock, f);
    return lock.kind === 'class' ? `${words} (${bench.names.classMembers(lock.class)})` : words;
  } catch { return line.trim() ? '?' : ''; }
}

const registersOf = (bench, f) => Array.from({ length: bench.program.functions[f].registers }, (_, r) => [r, bench.names.register(f, r)])
  .filter(([r, name]) => name !== 'r' + r).map(([r, name], i) => [i ? ', ' : '', el('code', {}, 'r' + r), ' is ', el('code', {}, name)]);

function headOf(bench, s, pc) {
  const own = bench.own[s] !== undefined, asInferred = Object.assign([], bench.own, { [s]: undefined });
  return el('div', {}, el('b', {}, `section ${s}`), pc < 0 ? ', not reached '
    : [` ${bench.names.where(pc)}, in `, el('code', {}, bench.names.functionAt(pc)), ' '],
  own ? el('button', { class: 'link', 'data-keep': 'inferred-' + s, title: 'The inferred list again',
    onclick: () => bench.setLists(asInferred) }, 'as inferred') : el('span', { class: 'soft' }, 'as inferred'));
}

function sectionOf(bench, list, s) {
  const pc = acquireOf(bench.program, s), f = pc < 0 ? 0 : functionAt(bench.program, pc), { refusal } = bench;
  return el('div', { class: 'own-list', key: s }, headOf(bench, s, pc),
    el('div', { class: 'own-rows' },
      el('textarea', { 'data-list': s, 'data-keep': 'own-' + s, 'aria-label': `List of section ${s}`,
        rows: list.trimEnd().split('\n').length + 1, spellcheck: 'false', autocomplete: 'off', wrap: 'off',
        'aria-invalid': refusal?.ofLists && refusal.list === s ? 'true' : null, readonly: isForbidden('lists'),
        oninput: event => { bench.setList(s, event.currentTarget.value); bench.changed('own'); } }),
      el('ul', { class: 'own-words' }, list.split('\n').map(line => el('li', {}, inWords(bench, line, f))))),
    el('div', { class: 'soft registers-are' }, registersOf(bench, f)));
}

// What the lists are judged by: the source itself, or that of a lesson about an assembly program. While the program of the step before
// is still open, nothing is judged: it would look like a verdict on the present step.
function judged(bench) {
  if (!bench.run || bench.refusal || presentStep()?.opening && isOpened(bench, openingAt(chosen(), lesson.done - 1))) return null;
  if (bench.kind === 'asl') return { source: bench.builtText, k: bench.builtK };
  const read = chosen(), opening = read && openingAt(read, lesson.done);
  return read?.source && opening.title === bench.title ? { source: read.source, k: opening.k } : null;
}

function lockWords(bench, { section, lock, reads }) {
  const pc = bench.kind === 'asl' ? acquireOf(bench.program, section) : -1;
  const told = pc < 0 ? '' : `, ${inWords(bench, lock, functionAt(bench.program, pc))}`;
  return `Section ${section} ${reads ? 'reads by its list' : 'needs'} \x60${lock}\x60${told}.`;
}

export function drawVerdict(bench) {
  const by = judged(bench), box = byId('own-verdict'), { refusal } = bench;
  box.hidden = !refusal?.ofLists && (!by || !bench.program.lists.length);
  if (box.hidden) return;
  if (refusal?.ofLists) return renew(box, el('b', { class: 'is-fault' }, '✕ refused: '), withCode(refusal.words + '.'));
  const told = verdictOf(by.source, bench.asm, by.k, () => bench.changed('own')), key = bench.asm;
  const which = shown.which === key && !isForbidden('which');
  const lacks = told && !told.enough && [' ', el('button', { class: 'link', 'data-keep': 'which', 'aria-expanded': String(which),
    disabled: isForbidden('which'), title: isForbidden('which') ? 'Not in this step of the lesson' : null,
    onclick: () => { shown.which = which ? '' : key; bench.changed('own'); } }, told.lacks ? 'which lock?' : 'why?'),
  which && el('span', {}, ' ', withCode(told.lacks ? lockWords(bench, told.lacks) : `The toolchain says \x60${told.said}\x60.`))];
  renew(box, el('code', {}, 'check'), ': ', !told ? 'asked ..' : told.enough ? el('b', { class: 'is-free' }, '✓ enough')
    : el('b', { class: 'is-fault' }, '✕ not enough'), lacks || null);
}

export function drawOwn(bench) {
  if (bench.ownBuilt && !shown.were) shown.is = true; // (as a link or a file brings them)
  shown.were = bench.ownBuilt;
  const box = byId('s-own'), source = bench.kind === 'asl', on = shown.is && source && bench.program && bench.inferred;
  const verdictAlone = bench.kind === 'asm' && judged(bench);
  box.hidden = !on && !verdictAlone;
  byId('own-open').disabled = !source || !bench.program;
  byId('own-open').setAttribute('aria-pressed', String(Boolean(on)));
  document.body.classList.toggle('with-own', !box.hidden);
  if (box.hidden) return;
  drawVerdict(bench);
  byId('own-help').hidden = byId('own-all').hidden = !on;
  if (!on) return renew(byId('own-lists'));
  const lists = listsOf(bench);
  renew(byId('own-lists'), lists.length ? lists.map((list, s) => sectionOf(bench, list, s)) : 'The program has no section.');
  for (const area of byId('own-lists').querySelectorAll('textarea')) {
    const wanted = lists[area.dataset.list];
    if (area.value !== wanted) area.value = wanted;
  }
  if (shown.enter) enter(bench);
  setText(byId('own-all').lastChild, partsOfText(bench.inferred).code + lists.map(list => 'list\n' + list).join(''));
}
