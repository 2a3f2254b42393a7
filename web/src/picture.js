// The printed timeline as a file that stands alone: what the style says of its shapes and texts becomes attributes, in light colours.
// Tried by web/test/shares.mjs.

import { byId, count, make, renew, svg } from './dom.js';
import { isDark, setDark } from './page.js';
import { printTimeline } from './panels/timeline.js';

const PLAIN = { fill: 'rgb(0, 0, 0)', 'fill-opacity': '1', stroke: 'none', 'stroke-width': '1px', 'stroke-dasharray': 'none', opacity: '1',
  'paint-order': 'normal', 'font-family': '', 'font-size': '', 'font-weight': '400', 'text-anchor': 'start' };

function standalone(node) {
  const copy = node.cloneNode(true), all = node.querySelectorAll('*');
  copy.querySelectorAll('*').forEach((to, i) => {
    const style = getComputedStyle(all[i]);
    for (const name in to.matches('line,rect,path,circle,text') ? PLAIN : {}) {
      const value = style.getPropertyValue(name), is = name.startsWith('font') ? to.matches('text') : !value.startsWith('url');
      if (is && value !== PLAIN[name]) to.setAttribute(name, value);
    }
    to.removeAttribute('class');
    to.removeAttribute('style');
  });
  return copy;
}

export const titleOf = ({ run, title, k, kind }) =>
  `${title}, ${kind === 'asl' ? `k ${k}, ` : ''}${count(run.threads, 'thread')}, ${count(run.length, 'event')}`;

export function pictureOf(bench) {
  const dark = isDark(), box = byId('print-lanes');
  setDark(false);
  printTimeline(bench);
  const rows = [...box.children], size = (row, name) => Number(row.getAttribute(name));
  const width = Math.max(...rows.map(row => size(row, 'width')));
  let height = 0;
  const placed = rows.map(row => {
    const copy = standalone(row);
    copy.setAttribute('y', height);
    height += size(row, 'height');
    return copy;
  });
  const whole = make(svg('svg', { viewBox: `0 0 ${width} ${height}`, width, height, role: 'img' },
    svg('title', {}, titleOf(bench)),
    svg('rect', { width, height, fill: getComputedStyle(byId('s-time')).backgroundColor })));
  whole.append(standalone(document.querySelector('.patterns defs')), ...placed);
  renew(box);
  setDark(dark);
  return new XMLSerializer().serializeToString(whole);
}
