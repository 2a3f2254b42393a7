// Everything by keyboard: the table of keys that `?` shows, and which action a key calls; the actions are bound to it in listening.js. In
// the editor only Escape is a key of the workbench.
// Tried by web/test/using.mjs.

export const KEYS = [
  ['0 to 9', 'step that thread'], ['← →', 'one event back, forward'], ['Shift ← →', 'ten events'], ['Home End', 'start, end'],
  ['r', 'round robin'], ['R', 'random steps, by the seed'], ['n', 'until somebody is blocked, or all have ended'],
  ['u  U', 'undo, redo'], ['c', 'clear the run'], ['Space', 'play, pause'],
  ['b  B', 'next, previous blocked'], ['h', 'from a blocked try to the event that took the lock'],
  ['w', 'from a register or cell to the event that wrote it'],
  ['o  O', 'next, previous output'], ['f  F', 'next, previous fault'], ['[  ]', 'previous, next event of the same thread'],
  ['e  Esc', 'into the editor, out of it'],
    ['i', 'open files, or a link'], ['N', 'a new program'], ['z', 'a note on a line'],
    ['Esc', 'stop what takes long, close a message'],
    ['k  K', 'larger, smaller k'], ['t  T', 'more, fewer threads'],
    ['x  X', 'why these locks, why one class'], ['v  Esc', 'into the lists by hand, out of them'],
  ['g', 'that thread goes to its next atomic'], ['G', 'to the end of its section'],
  ['Y', 'to its next event that is not “ran”'], ['I', 'to a line'],
  ['p', 'a breakpoint at its line, or none'], ['.  ,', 'all go to a breakpoint, or back to one'],
  ['q  Q', 'the order of two events in conflict, from one to the next; off'],
  ['P', 'predict each step'],
  ['S  ↑ ↓', 'to the choices of a lesson’s step, or what opens its program; from one to the next; Enter takes it'],
    ['H', 'hand in what a lesson has'],
  ['m', 'instructions, hidden or shown'],
  ['l', 'all lanes, or those with events in view'], ['+  −', 'zoom of the timeline'],
    ['L', 'lecture: large, for a projector'], ['y  M', 'in a lecture: the lists over k, all other buttons'],
    ['V', 'all panels, where a link shows some'],
  ['d', 'light, dark'], ['A  a', 'larger, smaller text'], ['s', 'share'],
    ['C  J', 'save the C program, the lists as JSON'], ['j', 'lessons'], ['?', 'this table'],
];

const typing = target => target && (/^(TEXTAREA|SELECT)$/.test(target.tagName) || (target.tagName === 'INPUT' && target.type !== 'range'));

// Where `off` says so, the page round this one has the keys.
export function listenToKeys(actions, off) {
  document.addEventListener('keydown', event => {
    if (off() || event.ctrlKey || event.metaKey || event.altKey || document.querySelector('dialog[open]')) return;
    const at = document.activeElement;
    if (typing(at)) {
      if (event.key === 'Escape' || (event.key === 'Enter' && at.tagName === 'INPUT')) at.blur();
      return;
    }
    if (at && at.tagName === 'BUTTON' && (event.key === ' ' || event.key === 'Enter')) return;
    const key = event.key.length === 1 || !event.shiftKey ? event.key : 'Shift' + event.key;
    const action = /^[0-9]$/.test(key) ? () => actions.step(Number(key)) : actions[key];
    if (!action) return;
    event.preventDefault();
    action();
  });
}
