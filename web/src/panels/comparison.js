// How the run would go at each k: its blocked steps, and the step that is shown, if it is blocked. The lists alone do not say whether
// finer ones let anybody pass in this run.
// Tried by web/test/shares.mjs.

import { byId, el, kButton, renew } from '../dom.js';
import { KS } from '../comparison.js';

export function drawComparison(bench, comparison, chooseK) {
  const box = byId('comparison');
  box.hidden = !comparison.ready;
  if (box.hidden) return;
  const { last, position } = bench;
  const heads = KS.map(k => el('th', { class: k === bench.k ? 'chosen' : null, scope: 'col' },
    kButton(k, bench.k, `k-all-${k}`, `The same steps with k ${k}`, chooseK)));
  const free = comparison.freeAt(position - 1);
  const row = (words, cell) => el('tr', {}, el('th', { scope: 'row' }, words),
    KS.map(k => el('td', { class: k === bench.k ? 'chosen' : null }, cell(k))), el('td'));
  renew(box, el('table', { class: 'matrix' },
    el('thead', {}, el('tr', {}, el('th', { scope: 'col' }, el('b', {}, 'the same steps'), ' at k'), heads, el('th'))),
    el('tbody', {}, row('steps that are blocked', k => comparison.count(k) ?? '–'),
      last && last.reply === 'blocked' ? row(`event ${position - 1}, the one shown`, k => verdict(free.includes(k))) : null)));
}

const verdict = free => (free ? el('span', { class: 'is-free', title: 'not blocked' }, '○')
  : el('span', { class: 'is-blocked', title: 'blocked' }, '⊠'));

// `2`, `1 to 8`, `0, 2 and 5 to 8`.
function ranges(numbers) {
  const parts = [];
  for (const n of numbers) {
    const open = parts.at(-1);
    if (open && open[1] === n - 1) open[1] = n; else parts.push([n, n]);
  }
  const told = parts.map(([a, b]) => (a === b ? String(a) : b === a + 1 ? `${a} and ${b}` : `${a} to ${b}`));
  return told.length > 1 ? told.slice(0, -1).join(', ') + ' and ' + told.at(-1) : told[0];
}

// At which k the blocked step that is shown would not be; nothing where that is not known yet.
export function elsewhere(bench, comparison) {
  if (!comparison.ready || !bench.last || bench.last.reply !== 'blocked') return '';
  const free = comparison.freeAt(bench.position - 1);
  return free.length ? `With the same steps it would not be blocked at k ${ranges(free)}. `
    : 'With the same steps it is blocked at each k. ';
}
