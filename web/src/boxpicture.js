// A panel as an SVG that stands alone: its boxes as rectangles, its words as texts where they stand, its arrows as they are, in light
// colours.
// Tried by web/test/large.mjs and web/test/shares.mjs.

import { make, svg } from './dom.js';
import { isDark, setDark } from './page.js';

const CLEAR = 'rgba(0, 0, 0, 0)', EDGE = 8;
const px = words => parseFloat(words) || 0;
// What the style paints with a gradient, by class: which part of the box is filled.
const FILLED = { s: ({ x, y, width, height }) => ({ x, y: y + height * 0.75, width, height: height * 0.25 }) };

// The rectangles of an element: what fills it, its border, its outline.
function boxesOf(node, style, place) {
  const { x, y, width, height } = place, border = px(style.borderTopWidth), shapes = [];
  const line = (inset, stroke, by, look) => svg('rect', { x: x + inset, y: y + inset, width: width - 2 * inset, height: height - 2 * inset,
    rx: px(style.borderTopLeftRadius), fill: 'none', stroke, 'stroke-width': by, 'stroke-dasharray': look === 'dashed' ? '4 3' : null });
  if (style.backgroundColor !== CLEAR) shapes.push(svg('rect', { x, y, width, height, rx: px(style.borderTopLeftRadius),
    fill: style.backgroundColor }));
  for (const name in FILLED) if (node.matches('.mode.' + name)) shapes.push(svg('rect', { ...FILLED[name](place),
    fill: style.borderTopColor }));
  if (node.matches('.chip.blk')) shapes.push(svg('rect', { x, y, width: Math.min(7, width), height, fill: 'url(#hatch)' }));
  if (border && style.borderTopStyle !== 'none' && style.borderTopWidth === style.borderLeftWidth)
    shapes.push(line(border / 2, style.borderTopColor, border, style.borderTopStyle));
  else if (px(style.borderBottomWidth)) shapes.push(svg('rect', { x, y: y + height - 1, width, height: 1, fill: style.borderBottomColor }));
  if (style.outlineStyle === 'solid') shapes.push(line(-px(style.outlineOffset) - 1.5, style.outlineColor, px(style.outlineWidth)));
  return shapes;
}

// The words of a text, each where it stands.
function wordsOf(node, style, corner) {
  const range = document.createRange(), words = [];
  for (const { 0: word, index } of node.data.matchAll(/\S+/g)) {
    range.setStart(node, index);
    range.setEnd(node, index + word.length);
    const { left, top, height, width } = range.getBoundingClientRect();
    if (!width) continue;
    words.push(svg('text', { x: left - corner.x, y: top - corner.y + height * 0.78, fill: style.color, 'font-family': style.fontFamily,
      'font-size': style.fontSize, 'font-weight': style.fontWeight, 'font-style': style.fontStyle === 'italic' ? 'italic' : null,
      textLength: word.length > 1 ? width : null, lengthAdjust: word.length > 1 ? 'spacingAndGlyphs' : null }, word));
  }
  return words;
}

// The paths of the arrows between objects.
const pathsOf = (node, place) => [...node.querySelectorAll('path')].map(path => {
  const { stroke, strokeWidth } = getComputedStyle(path);
  return svg('path', { d: path.getAttribute('d'), transform: `translate(${place.x},${place.y})`, fill: 'none', stroke,
    'stroke-width': strokeWidth, 'marker-end': path.getAttribute('marker-end') });
});

function drawn(node, corner, shapes) {
  if (node.nodeType === Node.TEXT_NODE) return shapes.push(...wordsOf(node, getComputedStyle(node.parentElement), corner));
  const { left, top, width, height } = node.getBoundingClientRect();
  const place = { x: left - corner.x, y: top - corner.y, width, height };
  if (node.matches('svg')) return shapes.push(...pathsOf(node, place));
  if (width && height) shapes.push(...boxesOf(node, getComputedStyle(node), place));
  for (const child of node.childNodes) drawn(child, corner, shapes);
}

// How far a shape goes to the right and down.
const rightOf = ({ x = 0, width, textLength }) => x + (width ?? textLength ?? EDGE);
const bottomOf = ({ y = 0, height = 0 }) => y + height;

// The picture of an element within a panel, and what it is called.
export function boxPicture(panel, box, title) {
  const dark = isDark(), { classList } = document.body;
  setDark(false);
  classList.add('picturing');
  const { left, top } = box.getBoundingClientRect(), shapes = [];
  drawn(box, { x: left - box.scrollLeft - EDGE, y: top - box.scrollTop - EDGE }, shapes);
  const reach = end => Math.ceil(Math.max(...shapes.map(({ attributes }) => end(attributes)))) + 2 * EDGE;
  const width = reach(rightOf), height = reach(bottomOf);
  const paper = getComputedStyle(panel).backgroundColor;
  classList.remove('picturing');
  setDark(dark);
  const used = shapes.some(({ attributes }) => 'marker-end' in attributes || attributes.fill === 'url(#hatch)');
  const whole = make(svg('svg', { viewBox: `0 0 ${width} ${height}`, width, height, role: 'img' }, svg('title', {}, title),
    svg('rect', { width, height, fill: paper }), shapes));
  if (used) whole.prepend(patterns());
  return new XMLSerializer().serializeToString(whole);
}

// The hatch and the heads of arrows, in the colours that they have now.
const patterns = () => make(svg('defs', {},
  svg('pattern', { id: 'hatch', width: 6, height: 6, patternUnits: 'userSpaceOnUse', patternTransform: 'rotate(45)' },
    svg('rect', { width: 2, height: 6, fill: '#a34a00' })),
  svg('marker', { id: 'arrow-head', viewBox: '0 0 8 8', refX: 7, refY: 4, markerWidth: 10, markerHeight: 10,
    markerUnits: 'userSpaceOnUse', orient: 'auto' }, svg('path', { d: 'M0,0L8,4L0,8Z', fill: '#4d5663' }))));
