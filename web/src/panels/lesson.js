// A lesson beside the panels: its steps, those done ticked, the present one with a hint on request.
// Tried by web/test/lessonfiles.mjs and web/test/lessons.mjs.

import { byId, el, renew, setText, whenDrawn, withCode } from '../dom.js';
import { LESSONS, addLesson, advance, brokenHere, chosen, examplesOf, endLesson, isForbidden, isOpened, isOver, isOfPage, lesson,
  lessonState } from '../lessons.js';
import { openingAt, readLesson } from '../lessontext.js';
import { checkLesson } from '../lessoncheck.js';
import { untilDone } from '../aside.js';
import { hasOwn } from '../own.js';
import { showOwn } from './own.js';
import { note, openDialog } from '../page.js';
import { packText, unpackText } from '../pack.js';

const open = opening => ({ text: opening.text, kind: opening.kind, title: opening.title, k: opening.k, threads: opening.threads,
  own: [...opening.own], schedule: opening.schedule, position: opening.schedule.length });

// Opens a lesson from its start, or where a link tells of steps, after these.
export async function openLesson(bench, number, examples, { number: _, done = 0, did, ...whole } = {}) {
  const read = LESSONS[number];
  if (!read) return false;
  const start = open(openingAt(read, done));
  showOwn(start.own.length > 0);
  await bench.load({ ...start, ...whole, lesson: { number, done, did } });
  return true;
}

// Makes a lesson known; answers its number, or what is wrong with it.
async function learn(text) {
  const { lesson: read, refusals = [], partly = read } = readLesson(text, examplesOf());
  const more = await untilDone(() => checkLesson(partly)), told = new Set(refusals.map(({ line }) => line));
  const wrong = [...refusals, ...more.filter(({ line }) => !told.has(line))].sort((a, b) => a.line - b.line);
  return wrong.length ? { wrong } : { number: addLesson({ ...read, packed: await packText(read.bare) }), wrong };
}
// A lesson of a file or a link: opened, or refused with the lines that are wrong.
export async function openLessonText(bench, text) {
  const { number, wrong } = await learn(text);
  if (!wrong.length) await openLesson(bench, number);
  return wrong;
}

// Makes those known that were opened before a reload.
export async function bringOpened(files) {
  for (const file of files) {
    const { lesson: read } = readLesson(file, examplesOf());
    if (read) addLesson({ ...read, packed: await packText(read.bare) });
  }
}

// The state of a lesson as words of a link, and back: null where they name no lesson. A lesson that is none of the page's is in them. While
// an answer is looked at, the lesson is none of what is seen.
export const lessonWords = state => (!state || state.aside ? [] : [
  isOfPage(state.number) ? 'lesson=' + (state.number + 1) : 'lesson-text=' + LESSONS[state.number].packed, 'done=' + state.done,
  ...(lesson.did && state.done ? ['did=' + lesson.did] : [])]);
export async function lessonOf(said) {
  const packed = said.get('lesson-text'), known = LESSONS.findIndex(read => packed && read.packed === packed);
  const { number = -1 } = !packed ? { number: Number(said.get('lesson')) - 1 } : known >= 0 ? { number: known }
    : await learn(await unpackText(packed).catch(() => ''));
  return LESSONS[number] && (packed || isOfPage(number)) ? { number, done: Number(said.get('done')) || 0, did: said.get('did') } : null;
}

// The refusals of a lesson: each with its line and the reason.
const asRow = row => row.trim().slice(0, 120).replace(/\p{Cf}/gu, '\uFFFD');
export const refusalList = wrong => el('ol', { class: 'refusals' }, wrong.map(({ line, words, row }) => el('li', {},
  el('b', {}, `Line ${line}: `), withCode(words), '.', row.trim() ? el('pre', {}, asRow(row)) : null)));

// What files are refused for, each { name, wrong }; so many others were opened.
export function tellRefused(refused, others) {
  const one = refused.length === 1;
  openDialog(one ? `${refused[0].name} is refused` : `${refused.length} files are refused`,
    el('p', {}, others < 1 ? 'Nothing was opened.' : others === 1 ? 'The other file was opened.' : `The other ${others} files were opened.`,
      ' What is wrong:'),
    refused.map(({ name, wrong }) => [one ? null : el('h3', {}, name), refusalList(wrong.slice(0, 100))]));
}

export function closeLesson(bench) {
  bench.keep();
  endLesson();
  drawLesson(bench);
  bench.changed('lesson');
}

function hintOf(bench, step) {
  if (!step.hint) return null;
  return [el('button', { class: 'link', 'data-keep': 'hint', 'aria-expanded': String(lesson.hint),
    onclick: () => { lesson.hint = !lesson.hint; drawLesson(bench); } }, 'a hint'), lesson.hint && el('em', {}, ' ', withCode(step.hint))];
}

// By key to the choices of the present step, or to what opens its program, and from one choice to the next.
export function toChoices() {
  const place = '[data-keep="lesson-back"],[data-keep="lesson-open"],.choices button';
  const first = !byId('s-lesson').hidden && byId('s-lesson').querySelector(place);
  if (first) first.focus(); else note('No step of a lesson waits for a choice.');
}
function fromChoiceToChoice(event) {
  const way = { ArrowDown: 1, ArrowUp: -1 }[event.key], all = [...event.currentTarget.querySelectorAll('button')];
  if (!way) return;
  event.preventDefault();
  all[(all.indexOf(document.activeElement) + way + all.length) % all.length].focus();
}
// A choice that is wrong may be followed by another one; how many were wrong is told.
function choose(bench, step, choice) {
  lesson.picked[lesson.done] = choice;
  if (choice !== step.right) lesson.missed++;
  bench.changed('lesson');
}
const choicesOf = (bench, step) => step.choices.length ? el('span', { class: 'choices', role: 'group', 'aria-label': 'Choices',
  onkeydown: fromChoiceToChoice },
  step.choices.map((choice, i) => el('button', { 'data-keep': 'choice-' + i, 'aria-pressed': String(lesson.picked[lesson.done] === choice),
    onclick: () => choose(bench, step, choice) }, withCode(choice))),
  lesson.missed ? el('em', {}, lesson.picked[lesson.done] === step.right ? ' Right, but there is more to do.'
    : ` No, it is another one (${lesson.missed} wrong so far).`) : null) : null;

// Where another program is to be open than the one that is there, or what is there is forbidden.
function toOpen(bench) {
  const opening = openingAt(chosen(), lesson.done), broke = brokenHere(bench);
  if (isOpened(bench, opening) && !broke.length) return null;
  return [broke.length ? el('em', {}, `It is not done with ${broke.join(' and ')}: `) : null,
    el('button', { class: 'link', 'data-keep': 'lesson-open',
      onclick: () => { showOwn(opening.own.length > 0); bench.load(open(opening)); } }, 'open ' + opening.title)];
}
// What was there before an answer was looked at, with the lesson.
export function backToLesson(bench) {
  const { aside } = lesson;
  showOwn(hasOwn(aside.own));
  return bench.load({ ...aside, lesson: { ...lessonState(), aside: null } });
}
const waits = bench => ['While an answer is looked at, the lesson waits: ',
  el('button', { class: 'link', 'data-keep': 'lesson-back', onclick: () => backToLesson(bench) }, 'back to your run')];

function stepRow(bench, step, i) {
  const state = i < lesson.done ? 'done' : i === lesson.done ? 'present' : 'later', present = state === 'present';
  return el('li', { class: state + (i === lesson.done - 1 ? ' newest' : ''), 'aria-current': present ? 'step' : null },
    el('span', { class: 'tick' }, state === 'done' ? '✓ ' : '▢ '), withCode(step.text), ' ',
    present && !lesson.aside ? [toOpen(bench), ' ', hintOf(bench, step), choicesOf(bench, step)] : null,
    state === 'done' && lesson.picked[i] ? [' Chosen: ', el('q', {}, withCode(lesson.picked[i]))] : null,
    state === 'done' && step.then ? el('span', { class: 'then' }, ' ', withCode(step.then)) : null);
}

export function drawLesson(bench) {
  const box = byId('s-lesson'), read = chosen();
  box.hidden = !read;
  if (read) advance(bench, () => bench.changed('lesson'));
  byId('text').readOnly = isForbidden('edit');
  if (!read) return;
  const source = byId('lesson-source');
  source.hidden = !read.source;
  setText(source.lastChild, read.source);
  setText(byId('lesson-title'), isOfPage(lesson.number) ? `Lesson ${lesson.number + 1}: ${read.title}` : read.title);
  renew(byId('lesson-waits'), lesson.aside ? waits(bench) : null);
  renew(byId('lesson-about'), withCode(read.about));
  renew(byId('lesson-steps'), read.steps.map((step, i) => stepRow(bench, step, i)));
  renew(byId('lesson-end'), withCode(isOver() ? 'Done. ' + read.answer : ''));
  whenDrawn(() => keepStepInSight(box));
}

// Where there is no room for the whole lesson, as in a lecture, its present step is at the top; above it what is told of the one that was
// just done, if both have room; and behind the last one the answer. Where it cannot come to the top, the lesson stands at its title, or if
// that leaves no room for the step, there is room made below: the title is whole or out of sight.
const seen = { step: null, lesson: -1, waits: false };
function keepStepInSight(box) {
  const end = byId('lesson-end'), made = parseFloat(end.style.paddingBottom) || 0;
  if (box.scrollHeight - made <= box.clientHeight + 4) { seen.lesson = -1; return () => { end.style.paddingBottom = ''; }; }
  const waiting = Boolean(lesson.aside);
  if (seen.step === lesson.done && seen.lesson === lesson.number && seen.waits === waiting) return null;
  Object.assign(seen, { step: lesson.done, lesson: lesson.number, waits: waiting });
  const step = waiting ? byId('lesson-waits') : box.querySelector('li.present') || byId('lesson-end'), outer = box.getBoundingClientRect();
  const inner = step.getBoundingClientRect();
  const told = !waiting && box.querySelector('li.newest .then')?.getBoundingClientRect();
  const top = told && inner.bottom - told.top < outer.height - 8 ? told.top : inner.top;
  const to = box.scrollTop + top - outer.top - 4, most = box.scrollHeight - made - box.clientHeight;
  const isBelow = to > most, fits = inner.bottom - outer.top + box.scrollTop < outer.height - 4;
  return () => {
    end.style.paddingBottom = isBelow && !fits ? to - most + 'px' : '';
    box.scrollTop = isBelow && fits ? 0 : to;
  };
}

export const lessonList = (openIt, linkTo) => el('ol', { class: 'lessons' },
  LESSONS.map((read, i) => el('li', {}, el('button', { class: 'link', onclick: () => openIt(i) }, read.title), ' ', withCode(read.about),
    isOfPage(i) ? null : [' ', el('button', { class: 'link', onclick: () => linkTo(read) }, 'copy a link to it')])));
