// What the panels for lists by hand, lessons, going further and prediction, and files that are made of the source, bring to the page:
// their keys, buttons and drawing.
// Tried by web/test/own.mjs and web/test/go.mjs.

import { isForbidden, isOfPage, keepRecords, LESSONS } from './lessons.js';
import { drawClasses, listenToClasses, nextClass } from './panels/classes.js';
import { drawOwn, enterOwn, toggleOwn } from './panels/own.js';
import { askLine, breakHere, drawBreaks, drawGo, go, listenToGutter } from './panels/go.js';
import { drawOrder, orderKey, toggleOrder } from './panels/order.js';
import { setOrder } from './order.js';
import { drawPredict, listenToPredict, togglePredict } from './panels/predict.js';
import { setPredict, predict } from './predict.js';
import { drawAnswers, closeAnswers, lessonLink, openAnswer, openHandIn } from './panels/answer.js';
import { lessonList, openLesson, openLessonText, tellRefused, toChoices } from './panels/lesson.js';
import { isLesson } from './lessontext.js';
import { isAnswer, answerText, readAnswer } from './handin.js';
import { copyText } from './files.js';
import { packText, unpackText } from './pack.js';
import { derive } from './derived.js';
import { readers } from './opening.js';
import { byId, el } from './dom.js';
import { linkHint, note, openDialog, tellForbidden } from './page.js';
import { DAMAGED } from './share.js';

// An action, unless the present step of a lesson is to be done without it.
export const unlessForbidden = (word, act) => (...given) => (isForbidden(word)
  ? tellForbidden(word) : act(...given));

export const extraKeys = bench => ({
  g: () => go(bench, 'atomic'), G: () => go(bench, 'end'), Y: () => go(bench, 'event'), I: () => askLine(bench),
  p: () => breakHere(bench), '.': () => go(bench, 'break'), ',': () => go(bench, 'back'),
  C: () => derive(bench, 'c'), J: () => derive(bench, 'lists'),
  X: () => nextClass(bench), q: () => orderKey(bench), Q: () => setOrder(bench, false),
  v: () => enterOwn(bench), P: () => togglePredict(bench), H: () => openHandIn(bench),
  S: toChoices,
});
export const extraButtons = bench => ({ 'own-open': () => toggleOwn(bench), predict: () => togglePredict(bench),
  order: () => toggleOrder(bench),
  'lesson-hand-in': () => openHandIn(bench), 'answer-close': () => closeAnswers(bench) });

// ---- lessons and answers from files and links

// Answers what is wrong with it, line by line.
const openText = (bench, text, examples, name, isOfAnswer) => (isOfAnswer ? openAnswer(bench, text, examples, name)
  : openLessonText(bench, text));
// What is to be done for a file that is a lesson or an answer; nothing where it is neither.
const reader = (bench, examples) => (name, text) => {
  const isOfAnswer = isAnswer(text) || /\.answer$/.test(name);
  if (!isOfAnswer && !isLesson(text) && !/\.lesson$/.test(name)) return null;
  return () => openText(bench, text, examples, name, isOfAnswer);
};
// How what was done is kept in a link, and read from it again: as an answer.
const keeper = (bench, examples) => ({
  pack: (number, records) => packText(answerText(number, records, '')),
  unpack: async letters => readAnswer(await unpackText(letters), examples).answer?.records || [],
  told: () => bench.changed('lesson'),
});
const GIVEN = /^#(lesson-text|answer)=([^&]*)$/;
// The same of an address.
export async function openGivenLink(bench, fragment, examples) {
  const [, word, letters] = GIVEN.exec(fragment) || [];
  if (!word) return false;
  const isOfAnswer = word === 'answer', what = isOfAnswer ? 'answer' : 'lesson', text = await unpackText(letters).catch(() => '');
  if (!text) throw new Error(`its ${what} is damaged${DAMAGED}`);
  const name = 'The ' + what, wrong = await openText(bench, text, examples, 'by a link', isOfAnswer);
  if (wrong.length) tellRefused([{ name, wrong }], 0);
  return !wrong.length;
}
// What a link turns on besides: `predict`, or `predict=atomic`; `order`.
export function openTurns(bench, fragment) {
  const said = /[#&]predict(?:=(\w+))?(?:&|$)/.exec(fragment);
  if (said) setPredict(bench, true, said[1] !== 'atomic');
  if (/[#&]order(?:&|$)/.test(fragment)) setOrder(bench, true);
}

export function openLessonsDialog(bench, examples) {
  openDialog('Lessons', lessonList(number => { byId('dialog').close(); openLesson(bench, number, examples); },
    async read => note((await copyText(await lessonLink(read))) ? 'The link is copied.' : 'Could not copy.')),
  el('p', { class: 'soft' }, 'A lesson of your own is a text file: drop it anywhere, or open it by “Open”. '
    + 'So, too, answers that were handed in.'), LESSONS.some((_, number) => !isOfPage(number)) ? linkHint() : null);
}

export function listenToExtras(bench, examples) {
  readers.push(reader(bench, examples));
  keepRecords(keeper(bench, examples));
  listenToGutter(bench);
  listenToPredict(bench);
  listenToClasses(bench);
  const dialog = byId('dialog'); // (the keys are the workbench's again once it is closed)
  dialog.addEventListener('close', () => { if (!dialog.open && dialog.contains(document.activeElement)) document.activeElement.blur(); });
  byId('predict-all').addEventListener('change', event => setPredict(bench, predict.on, !event.target.checked));
}
export function drawExtras(bench) {
  drawOwn(bench);
  drawClasses(bench);
  drawBreaks();
  drawGo(bench);
  drawPredict(bench);
  drawOrder(bench);
  drawAnswers(bench);
}
