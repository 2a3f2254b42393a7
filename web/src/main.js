// Puts the workbench together: loads the toolchain, listens, and opens what the address or the page before says.
// Tried by web/test/starting.mjs.

import { loadExample } from './actions.js';
import { bench, changed, due, examples } from './desk.js';
import { byId, el, make, textSize } from './dom.js';
import { draw } from './drawing.js';
import { listenToExtras } from './extras.js';
import { keptFragment, takeLeft } from './kept.js';
import { takeLessons } from './lessons.js';
import { loadFragment, openLink } from './links.js';
import { listenToButtons, listenToKeyboard, listenToPage, waitingChanged } from './listening.js';
import { takeLook } from './look.js';
import { openFiles } from './opening.js';
import { isLooking } from './order.js';
import { cannotStart } from './packed.js';
import { bringOpened } from './panels/lesson.js';
import { editorMoved } from './panels/rows.js';
import { watchRoom } from './room.js';
import { wordsOfFragment } from './share.js';
import { hasCommand, isBusy, openToolchain, toolStatistics } from './toolchain.js';
import { tellView } from './view.js';

due.draw = draw;

async function start() {
  const data = await window.carried.data;
  Object.assign(examples, data.examples);
  takeLessons(data.lessons, examples);
  takeLook(wordsOfFragment(location.hash));
  for (const old of document.querySelectorAll('#example > option:not(:first-child)')) old.remove(); // of a page that was saved whole
  byId('opened').before(...Object.entries(examples).map(([name, { about }]) => make(el('option', { value: name },
    `${name} – ${about}`))));
  await openToolchain(window.carried.module, data.worker, waitingChanged);
  listenToButtons();
  listenToKeyboard();
  listenToPage();
  listenToExtras(bench, examples);
  due.measure = watchRoom(() => changed(editorMoved() ? 'rows' : 'follow'));
  const left = takeLeft();
  if (left) await bringOpened(left.lessons);
  if (!(await loadFragment(keptFragment(), true))) await loadExample('counter.asl');
  if (left) await bench.open(left.moment);
  requestAnimationFrame(() => setTimeout(() => { window.workbench = { bench, tellView, toolStatistics, textSize,
    loadFile: (name, bytes) => openFiles(bench, examples, [{ name, bytes }]), openFiles: files => openFiles(bench, examples, files),
    openLink, hasCommand,
    isBusy: () => isBusy() || isLooking() || Boolean(bench.going || due.lists), ready: performance.now() }; }));
}

start().catch(cannotStart);
