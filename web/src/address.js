// What the page shows, as the fragment of its address: program, run, lesson and look.
// Tried by web/test/shares.mjs and web/test/keeping.mjs.

import { bench, due, examples } from './desk.js';
import { setText, byId } from './dom.js';
import { forgetLeft, keepFragment, leaveBehind, timesLeft } from './kept.js';
import { filesOpened } from './lessons.js';
import { lookWords } from './look.js';
import { orderIsOn } from './order.js';
import { lessonWords } from './panels/lesson.js';
import { toFragment } from './share.js';

const fragmentNow = () => {
  const moment = bench.moment();
  return toFragment(moment, examples, lessonWords(moment.lesson), [...lookWords(), ...(orderIsOn() ? ['order'] : [])]);
};
// Only the last that was asked for is written. (What was left while it was packed is newer.)
export async function writeAddress() {
  const turn = ++due.written, left = timesLeft(), fragment = await fragmentNow();
  if (turn !== due.written) return fragment;
  setText(byId('kept'), keepFragment(fragment));
  if (left === timesLeft()) forgetLeft();
  return fragment;
}
// Nothing can be waited for when the page is left or hidden.
export const keepAtOnce = () => { if (bench.title) leaveBehind(bench.moment(), filesOpened()); };
