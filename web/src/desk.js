// The bench of this page, what it is compared with, and what is due: a change is drawn once a frame.
// Tried by web/test/lecture.mjs.

import { Bench } from './bench.js';
import { Comparison } from './comparison.js';
import { keepingFocus } from './dom.js';
import { lessonState, restoreLesson } from './lessons.js';

export const examples = Object.create(null); // (no other name is one)
export const due = { frame: 0, what: new Set(), address: 0, lists: 0, working: 0, player: 0, written: 0, measure: null, draw: null };
export const SOON = 200; // milliseconds that may pass before the page says that it waits
export const bench = new Bench(changed, { state: lessonState, restore: restoreLesson });
export const comparison = new Comparison(bench, changed);

// Notes what has changed; it is drawn by `due.draw`, with all that changes up to the next frame.
export function changed(what) {
  if (what === 'text' || what === 'run') comparison.begin();
  due.what.add(what);
  if (!due.frame) due.frame = requestAnimationFrame(() => keepingFocus(due.draw));
}

export const events = () => (bench.run ? bench.run.events : []);
export const isOver = () => bench.state.threads.every(thread => thread.status !== 'runs');
