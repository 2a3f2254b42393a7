// Draws the page: once a frame, only what changed.
// Tried by web/test/views.mjs and web/test/pace.mjs.

import { chooseK, openWhy } from './actions.js';
import { writeAddress } from './address.js';
import { bench, changed, comparison, due, examples, isOver, SOON } from './desk.js';
import { differenceAt } from './difference.js';
import { byId, el, lookAtDrawn, renew, setText } from './dom.js';
import { drawExtras } from './extras.js';
import { isForbidden } from './lessons.js';
import { drawComparison, elsewhere } from './panels/comparison.js';
import { drawText } from './panels/editor.js';
import { drawEvents } from './panels/events.js';
import { drawBreaks } from './panels/go.js';
import { drawHeap } from './panels/heap.js';
import { drawLesson } from './panels/lesson.js';
import { drawLocks } from './panels/locks.js';
import { drawNotes } from './panels/notes.js';
import { drawPlaces } from './panels/positions.js';
import { drawHere, drawSections, keepHere } from './panels/sections.js';
import { drawStrip, drawStripCursor } from './panels/strip.js';
import { drawThreads } from './panels/threads.js';
import { drawTimeline, measureLanes } from './panels/timeline.js';
import { nextSentence, sentence } from './sentence.js';

const FORBIDDEN = { robin: 'robin', until: 'until', random: 'random', k: 'k', 'threads-wanted': 'threads' }; // by a step of a lesson
const PLACES = new Set(['rows', 'scroll', 'follow', 'point']); // of the editor alone

export function draw() {
  due.frame = 0;
  const { what } = due;
  due.what = new Set();
  if (what.has('text') || what.has('size') || what.has('lists')) drawLists(what.has('lists'));
  if (what.delete('lists') && bench.run) drawHere(bench);
  if (!what.size) return lookAtDrawn();
  if (what.size === 1 && what.has('comparison')) return drawCompared();
  if (what.has('text') || what.has('size') || what.has('rows')) { drawText(bench, openWhy); drawSettings(); drawNotes(bench); }
  if (what.has('rows')) drawBreaks(); // (other lines are in these rows now)
  if ([...what].every(name => PLACES.has(name))) { drawPlaces(bench, what.has('follow')); return lookAtDrawn(); }
  document.body.classList.toggle('no-run', !bench.run);
  document.body.classList.toggle('refused', Boolean(bench.refusal));
  if (what.has('size') || what.has('text')) due.measure?.();
  measureLanes();
  drawPlaces(bench, what.size > 1 || !what.has('breaks')); // (a breakpoint is made where one looks, which stays)
  drawLesson(bench);
  document.body.classList.toggle('with-lesson', !byId('s-lesson').hidden);
  drawButtons();
  drawExtras(bench);
  if (bench.run) drawRun(what);
  else renew(byId('say'), el('p', { class: 'is-fault' },
    bench.refusal ? 'The text does not compile yet: ' + bench.refusal.words : ''));
  lookAtDrawn();
  clearTimeout(due.address);
  due.address = setTimeout(writeAddress, 250);
}

// The comparison takes room above the lists once it is there.
function drawCompared() {
  const was = byId('comparison').hidden;
  drawSentences();
  if (was && bench.run) keepHere();
  lookAtDrawn();
}
// The lists of all k come soon after a text; what stood there stays until then.
function drawLists(atOnce) {
  clearTimeout(due.lists);
  due.lists = 0;
  if (atOnce || bench.lists) return drawSections(bench, openWhy, chooseK);
  due.lists = setTimeout(() => changed('lists'), SOON);
}

function drawSentences() {
  drawComparison(bench, comparison, chooseK);
  if (bench.run) renew(byId('say'), el('p', {}, sentence(bench, openWhy)),
    el('p', { class: 'soft' }, bench.origin?.state === bench.state && bench.origin.told, elsewhere(bench, comparison),
      nextSentence(bench)));
}

function drawRun(what) {
  const change = differenceAt(bench.run, bench.position);
  drawSentences();
  drawTimeline(bench);
  if (what.size > 1 || !what.has('position')) drawStrip(bench, what.has('text') || what.has('size'));
  drawStripCursor(bench);
  drawLocks(bench);
  drawThreads(bench, change);
  drawHeap(bench, change);
  drawEvents(bench);
  drawHere(bench);
}

function drawSettings() {
  byId('k').value = bench.k;
  byId('threads-wanted').value = bench.threads;
  if (document.activeElement !== byId('example')) byId('example').value = '';
  byId('title').textContent = bench.title;
  byId('changed').hidden = !(examples[bench.title] && examples[bench.title].text !== bench.text);
  document.title = bench.title + ' · asl workbench';
}

function drawButtons() {
  const { position, run } = bench, over = !run || isOver(), length = run ? run.length : 0;
  const off = { first: !position, back: !position, forward: position === length, last: position === length,
    undo: !bench.past.canGoBack, redo: !bench.past.canGoForward,
    clear: !length, robin: over, random: over, until: over, play: !length, k: bench.kind !== 'asl', 'threads-wanted': false };
  for (const [id, is] of Object.entries(off)) byId(id).disabled = is;
  for (const [id, word] of Object.entries(FORBIDDEN)) if (isForbidden(word)) byId(id).disabled = true;
  setText(byId('position'), run ? `after ${position} of ${length} events` : 'no run');
  byId('position').dataset.brief = run ? `${position}/${length}` : '';
  Object.assign(byId('slide'), { max: length, value: position, disabled: !run });
}
