// What a reload finds again: the address says all, or where that would be too long the browser's store of this tab. What is newer than the
// address when the page is left is in that store, too: an address that is set then is not the one that a reload opens.
// Tried by web/test/keeping.mjs.

import { ownOfJson } from './own.js';

const LONGEST = 30_000; // letters of an address that browsers and mail let pass
const MARK = '#kept=', STORE = 'asl-workbench-', LEFT = 'left';
// `entry` is a name of its own of this place in the tab's history; `before` is the address before the last one that was set
const kept = { own: '', before: '', name: '', entry: '', left: 0 };

const newName = () => Array.from(crypto.getRandomValues(new Uint8Array(6)), byte => byte.toString(36)).join('');

// Sets the address; answers whether it may be set.
function setAddress(fragment) {
  kept.own = fragment;
  if (location.hash === fragment) return true;
  kept.before = location.hash;
  try { history.replaceState({ entry: kept.entry }, '', fragment); return true; } catch { return false; }
}
function store(name, fragment) {
  try { sessionStorage.setItem(STORE + name, fragment); return true; } catch { return false; }
}

// Keeps a fragment; answers in which words the page says where.
export function keepFragment(fragment) {
  if (fragment.length <= LONGEST && setAddress(fragment)) return 'kept in the address';
  kept.name ||= newName();
  if (store(kept.name, fragment) && setAddress(MARK + kept.name)) return 'kept in this tab by the browser’s store';
  return 'not kept over a reload: too long for the address, and the browser has no store for it';
}

// What is there when the page is left, as plain data; and the lessons that were opened, if the store has room for them.
export function leaveBehind(moment, lessons) {
  kept.left++;
  const { entry, before } = kept, addresses = [location.hash, before];
  return [lessons, []].some(some => store(LEFT, JSON.stringify({ entry, addresses, moment, lessons: some })));
}
export const timesLeft = () => kept.left;
export function forgetLeft() { try { sessionStorage.removeItem(STORE + LEFT); } catch { /* there is no store */ } }
// Whether that was left here. Where the address is set while the page is loaded anew, which nobody can know, Chromium has the address from
// before that and no state: then it is told by the address.
function isHere({ entry, addresses = [] }) {
  if (history.state || !entry) return Boolean(entry) && entry === history.state.entry;
  return performance.getEntriesByType('navigation')[0]?.type === 'reload' && addresses.includes(location.hash);
}
const revived = (name, value) => (name === 'own' ? ownOfJson(value) : value);
// What the page has left at this place of the history, to which a reload or a way back has come. (The address may have been written anew
// between.) It is given once.
export function takeLeft() {
  try {
    const left = JSON.parse(sessionStorage.getItem(STORE + LEFT), revived) || {}, { moment, lessons = [] } = left;
    forgetLeft();
    return isHere(left) ? { moment, lessons } : null;
  } catch { return null; }
}
function nameEntry() {
  kept.entry = history.state?.entry || newName();
  try { history.replaceState({ entry: kept.entry }, ''); } catch { /* then nothing is taken */ }
}

// Whether the address is another one than that which the page has written.
export const isForeign = () => location.hash !== kept.own;

// The fragment that the address stands for.
export function keptFragment() {
  const { hash } = location;
  kept.own = hash;
  nameEntry();
  if (!hash.startsWith(MARK)) return hash;
  kept.name = hash.slice(MARK.length);
  try { return sessionStorage.getItem(STORE + kept.name) || ''; } catch { return ''; }
}
