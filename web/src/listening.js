// Which button, key or other event does what.
// Tried by web/test/using.mjs and web/test/opening.mjs, and by hand by web/test/random.mjs.
// What is chosen of `file` and `example` is emptied, so that the same one, chosen again, is a change.

import { chooseK, chooseThreads, loadExample, loadFileList, openNew, openShare, play, random, rename, replies, robin, sameThread,
  toHolder, toWriter, until, whyHere } from './actions.js';
import { keepAtOnce } from './address.js';
import { bench, changed, due, events, examples, SOON } from './desk.js';
import { byId } from './dom.js';
import { extraButtons, extraKeys, openLessonsDialog } from './extras.js';
import { isForeign, keptFragment } from './kept.js';
import { listenToKeys } from './keys.js';
import { loadFragment, openLink, openLinkOrFiles } from './links.js';
import { keysAreOff, show } from './look.js';
import { hasFragment } from './opening.js';
import { changeTextSize, isDark, openKeys, setDark, toggleInstructions, toggleLecture } from './page.js';
import { closeClass } from './panels/classes.js';
import { drawTyped, enterEditor, pasteLong, writeKey } from './panels/editor.js';
import { closeLesson } from './panels/lesson.js';
import { writeNote } from './panels/notes.js';
import { editorMoved } from './panels/rows.js';
import { lanesShown, printTimeline, zoomBy } from './panels/timeline.js';
import { closeTrouble } from './panels/trouble.js';
import { isWaitedFor, stopAll } from './toolchain.js';

const openLessons = () => openLessonsDialog(bench, examples);

export function listenToButtons() {
  const actions = { first: () => bench.go(0), back: () => bench.move(-1), forward: () => bench.move(1), last: () => bench.go(Infinity),
    robin, random, until, undo: () => bench.undo(), redo: () => bench.redo(), clear: () => bench.clear(), play, share: openShare,
    lessons: openLessons, ...extraButtons(bench), 'lesson-close': () => closeLesson(bench),
      help: openKeys, lecture, menu, lists, rename, new: openNew, 'note-line': () => writeNote(bench),
      whole: () => { show(null); changed('size'); },
    theme: () => { setDark(!isDark()); changed('size'); }, larger: () => resize(2), smaller: () => resize(-2),
      'show-instructions': () => toggleInstructions(), 'dialog-close': () => byId('dialog').close(),
      open: openLinkOrFiles, stop: stopAll };
  for (const [id, action] of Object.entries(actions)) byId(id).addEventListener('click', action);
  byId('slide').addEventListener('input', event => bench.go(Number(event.target.value)));
  byId('example').addEventListener('change', event => { if (event.target.value) loadExample(event.target.value); leave(event); });
  byId('example').addEventListener('blur', event => { event.target.value = ''; });
  byId('k').addEventListener('change', event => { chooseK(Number(event.target.value)); leave(event); });
  byId('threads-wanted').addEventListener('change', event => chooseThreads(Number(event.target.value)));
  byId('file').addEventListener('change', async event => { await loadFileList(event.target.files); event.target.value = ''; });
  byId('strip').addEventListener('click',
    event => { const { left, width } = byId('strip').getBoundingClientRect();
    if (width) bench.go(Math.round(((event.clientX - left) / width) * events().length)); });
}

// After a while of waiting the page says so, shows the text that is wanted, and offers to stop.
export function waitingChanged() {
  if (!isWaitedFor()) {
    clearTimeout(due.working);
    Object.assign(due, { working: 0 });
    byId('working').hidden = true;
  } else due.working ||= setTimeout(() => { byId('working').hidden = false; changed('size'); }, SOON);
}

// After a choice by the mouse the keys are the workbench's again; by keyboard one continues choosing, and leaves by Escape.
const leave = ({ target }) => { if (!target.matches(':focus-visible')) target.blur(); };
const resize = by => { changeTextSize(by); changed('size'); };
const lecture = () => { toggleLecture(); changed('size'); };
const pressed = (name, id, told) => byId(id).setAttribute(told, document.body.classList.toggle(name));
const menu = () => { pressed('menu', 'menu', 'aria-expanded'); changed('size'); };
const lists = () => { pressed('lists', 'lists', 'aria-pressed'); changed('size'); };

export function listenToKeyboard() {
  listenToKeys({ step: t => bench.step(t), ArrowLeft: () => bench.move(-1), ArrowRight: () => bench.move(1),
    ShiftArrowLeft: () => bench.move(-10), ShiftArrowRight: () => bench.move(10), Home: () => bench.go(0),
    End: () => bench.go(Infinity), Escape: () => { stopAll(); if (!closeTrouble()) closeClass(bench); },
    r: robin, R: random, n: until, u: () => bench.undo(), U: () => bench.redo(), c: () => bench.clear(), ' ': play,
    b: replies('blocked', 1), B: replies('blocked', -1), o: replies('out', 1), O: replies('out', -1), f: replies('fault', 1),
      F: replies('fault', -1), h: toHolder, w: toWriter, '[': sameThread(-1), ']': sameThread(1),
    e: enterEditor, k: () => chooseK(bench.k + 1), K: () => chooseK(bench.k - 1),
    t: () => chooseThreads(bench.threads + 1), T: () => chooseThreads(bench.threads - 1), x: whyHere, ...extraKeys(bench),
      m: () => toggleInstructions(), s: openShare, j: openLessons, '?': openKeys,
    l: () => { lanesShown.all = !lanesShown.all; changed('size'); }, '+': () => { zoomBy(1.25); changed('size'); },
      '=': () => { zoomBy(1.25); changed('size'); }, '-': () => { zoomBy(0.8); changed('size'); },
    i: openLinkOrFiles, N: openNew, z: () => writeNote(bench), y: lists, M: menu, V: () => { show(null); changed('size'); },
    L: lecture, d: () => { setDark(!isDark()); changed('size'); }, A: () => resize(2),
      a: () => resize(-2) }, keysAreOff);
}

export function listenToPage() {
  let sized = 0;
  byId('text').addEventListener('input',
    event => { bench.type(event.target.value); drawTyped(bench); });
  byId('text').addEventListener('blur', () => bench.past.rest());
  byId('text').addEventListener('paste', pasteLong);
  byId('text').addEventListener('keydown', writeKey);
  addEventListener('resize', () => { clearTimeout(sized); sized = setTimeout(() => changed('size'), 80); });
  addEventListener('pagehide', keepAtOnce);
  document.addEventListener('visibilitychange', () => { if (document.visibilityState === 'hidden') keepAtOnce(); });
  addEventListener('beforeprint', () => { if (bench.run) printTimeline(bench); });
  addEventListener('dragover', event => { event.preventDefault(); document.body.classList.add('dropping'); });
  addEventListener('dragleave', event => { if (!event.relatedTarget) document.body.classList.remove('dropping'); });
  addEventListener('drop', event => { event.preventDefault(); document.body.classList.remove('dropping');
    loadFileList(event.dataTransfer.files); });
  addEventListener('paste', pasted);
  addEventListener('hashchange', async () => { if (isForeign()) { await loadFragment(keptFragment(), true); changed('size'); } });
  byId('editor').addEventListener('scroll', () => changed(editorMoved() ? 'rows' : 'scroll'), { passive: true });
}

// What is pasted where nothing is written is opened: files, or a link.
function pasted(event) {
  if (event.target.closest?.('textarea,input,dialog')) return;
  const { files } = event.clipboardData, words = event.clipboardData.getData('text');
  if (files.length) loadFileList(files); else if (hasFragment(words)) openLink(words);
}
