// How high the panels of the first screen may be in a lecture or an embedding: what header and timeline leave of the window, and how much
// the lock tree wants.
// Tried by web/test/lecture.mjs.

import { byId, textSize } from './dom.js';
import { keepClash } from './panels/locks.js';
import { keepHereNow } from './panels/sections.js';

const TALL = 38; // lines of letters in a window that has room for lists below the lock tree

// `told` hears it when the editor has got another height. Answers what is to be called when the page looks otherwise.
export function watchRoom(told) {
  const { style } = document.body, header = byId('say').closest('header');
  const measured = { '--head': header, '--time': byId('s-time'), '--tree': byId('locks') };
  // (what all that is in the page inherits costs a look at all of it, so it is set only where it is needed)
  const measure = () => {
    // (what comes into sight comes below the header, where that stays at the top)
    document.documentElement.style.scrollPaddingTop = getComputedStyle(header).position === 'sticky' ? header.offsetHeight + 4 + 'px' : '';
    if (!document.body.matches('.lecture,.view')) return;
    document.body.classList.toggle('tall', innerHeight >= TALL * textSize());
    for (const [name, { offsetHeight }] of Object.entries(measured)) style.setProperty(name, offsetHeight + 'px');
  };
  const watcher = new ResizeObserver(measure);
  for (const box of Object.values(measured)) watcher.observe(box);
  new ResizeObserver(told).observe(byId('editor'));
  new ResizeObserver(keepClash).observe(byId('s-locks'));
  new ResizeObserver(keepHereNow).observe(byId('s-sections'));
  return measure;
}
