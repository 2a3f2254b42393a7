// How the page looks, as a link says it: `view=code,time,locks` shows these panels alone, `lecture`, `theme=dark`, `size=18`, `keys=off`.
// Tried by web/test/lecture.mjs and web/test/shares.mjs.

import { byId } from './dom.js';
import { isDark, setDark, setLecture, setTextSize, sizeAsked, toggleInstructions } from './page.js';

export const PANELS = { lesson: 's-lesson', time: 's-time', code: 's-code', lists: 's-sections', locks: 's-locks', threads: 's-threads',
  heap: 's-heap', events: 's-events' };
const TOP = ['lesson', 'time']; // as wide as the page; the others stand side by side below
const look = { view: null, keys: true, theme: '', size: 0 };

export const keysAreOff = () => !look.keys;
const prefersDark = () => matchMedia('(prefers-color-scheme: dark)').matches;

// Of the words of a fragment; what is not there is as a page without a link has it.
export function takeLook(said) {
  const view = (said.get('view') || '').split(',').filter(name => Object.hasOwn(PANELS, name));
  Object.assign(look, { keys: said.get('keys') !== 'off', theme: /^(dark|light)$/.test(said.get('theme')) ? said.get('theme') : '' });
  setDark(look.theme ? look.theme === 'dark' : prefersDark());
  setLecture(said.has('lecture'));
  const size = Number(said.get('size'));
  if (said.has('size') && size >= 8) setTextSize(size);
  show(view.length ? view : null);
  if (view.length && innerWidth < 1000) toggleInstructions(true);
}

// Shows these panels alone, or all.
export function show(view) {
  look.view = view;
  const { body } = document;
  body.classList.toggle('view', Boolean(view));
  for (const [name, id] of Object.entries(PANELS)) byId(id).classList.toggle('unseen', Boolean(view && !view.includes(name)));
  const columns = view ? view.filter(name => !TOP.includes(name)).length : 0;
  body.style.setProperty('--columns', Math.max(1, columns));
}

// The words that say how the page looks now.
export function lookWords() {
  const words = [], lecture = document.body.classList.contains('lecture'), size = sizeAsked();
  if (look.view) words.push('view=' + look.view.join(','));
  if (lecture) words.push('lecture');
  if (look.theme || isDark() !== prefersDark()) words.push('theme=' + (isDark() ? 'dark' : 'light'));
  if (size && (lecture || size !== 15)) words.push('size=' + size);
  if (!look.keys) words.push('keys=off');
  return words;
}
