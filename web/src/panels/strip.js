// The whole run as a strip, since the lanes show but a part of a long one; a click goes there. It is a canvas: a mark for each of 10,000
// events would be as many elements.

import { byId, whenDrawn } from '../dom.js';
import { zoom } from './timeline.js';

const LONG = 1000, REST = 150; // a long run that has grown by less than a hundredth is painted anew when nothing has changed for a while
const painted = { run: null, length: 0, timer: 0 };

export function drawStrip(bench, whole) {
  const box = byId('strip'), { run } = bench, { length } = run;
  box.hidden = length < 12;
  clearTimeout(painted.timer);
  if (box.hidden) return;
  const little = length > LONG && length >= painted.length && length < painted.length * 1.01;
  if (whole || run !== painted.run || !little) whenDrawn(() => look(bench));
  else painted.timer = setTimeout(() => bench.run === run && look(bench)(), REST);
}

function look(bench) {
  const canvas = byId('strip').firstElementChild, size = canvas.getBoundingClientRect();
  return () => paintStrip(bench, canvas, size);
}

function paintStrip(bench, canvas, size) {
  Object.assign(painted, { run: bench.run, length: bench.run.length });
  const length = Math.max(bench.run.length, 1), density = devicePixelRatio || 1;
  canvas.width = Math.max(1, size.width * density);
  canvas.height = Math.max(1, size.height * density);
  const paper = canvas.getContext('2d'), style = getComputedStyle(document.documentElement);
  const colour = name => style.getPropertyValue(name).trim();
  const lane = canvas.height / bench.run.threads, x = k => (Math.min(k, length) / length) * canvas.width;
  bench.stretches.sections.forEach((sections, t) => {
    paper.fillStyle = colour('--t' + (t % 8));
    for (const { from, to, depth } of sections) if (depth === 1) paper.fillRect(x(from), t * lane + lane * 0.1,
      Math.max(1, x(to) - x(from)), lane * 0.8);
    paper.fillStyle = colour('--wait');
    for (const { from, to } of bench.stretches.waits[t]) paper.fillRect(x(from), t * lane + lane * 0.4,
      Math.max(1, x(to) - x(from)), Math.max(1, lane * 0.22));
  });
  paper.fillStyle = colour('--bad');
  bench.run.events.forEach((event, k) => { if (event.reply === 'fault') paper.fillRect(x(k), 0, 3 * density, canvas.height); });
}

export function drawStripCursor(bench) {
  const length = Math.max(bench.run.length, 1);
  byId('strip-now').style.left = (100 * bench.position) / length + '%';
  const seen = byId('strip-window').style;
  seen.left = (100 * zoom.from) / length + '%';
  seen.width = (100 * (zoom.to - zoom.from)) / length + '%';
  seen.display = zoom.from === 0 && zoom.to >= length ? 'none' : '';
}
