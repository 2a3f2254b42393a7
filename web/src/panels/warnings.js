// What the text does not say, below the program: each warning with its line, which a click marks.
// Tried by web/test/warnings.mjs.

import { byId, el, renew, withCode } from '../dom.js';
import { pointTo } from '../pointed.js';

const MOST = 40;

// Of the text as it stands; while another one is typed, none.
export const warningsNow = bench => (bench.warnedText === bench.text && !bench.refusal ? bench.warnings : []);
// In few words, by line.
export function warnedLines(bench) {
  const lines = {};
  for (const { line, few } of warningsNow(bench)) lines[line] = lines[line] && lines[line] !== few ? `${lines[line]}; ${few}` : few;
  return lines;
}

export function drawWarnings(bench) {
  const box = byId('warnings'), all = warningsNow(bench);
  box.hidden = !all.length;
  renew(box, all.slice(0, MOST).map(({ line, words }, i) => el('li', { key: i }, '⚠\uFE0E ', el('button', { class: 'link',
    'data-keep': 'warning-' + i, title: 'Mark this line', onclick: () => { pointTo(line, bench.text); bench.changed('point'); } },
  `line ${line + 1}`), ' ', withCode(words))),
  all.length > MOST ? el('li', {}, `and ${all.length - MOST} more, beside their lines`) : null);
}
