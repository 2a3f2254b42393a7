// Which event wrote the value that a register or a cell has at a position, by the table of instructions; none is -1. Where a store went
// is asked of the run.
// Tried by web/test/views.mjs.

import { byId, el, withCode } from './dom.js';
import { note } from './page.js';
import { written } from './difference.js';

// On the way back a frame that has returned begins at its `ret`, and one ends at its `call`. `level` counts the frames above.
export function writerOfRegister(run, position, thread, level, register) {
  const returned = [];
  for (let k = position - 1; k >= 0; k--) {
    const event = run.events[k];
    if (event.thread !== thread || event.reply !== 'ran') continue;
    const line = run.program.code[event.pc], [op] = line.split(' '), above = level + returned.length;
    if (op === 'ret') returned.push(k);
    else if (op !== 'call') { if (!above && written(line) === register) return k; }
    else if (returned.length) {
      const at = returned.pop();
      if (above === 1 && written(line) === register) return at;
    } else if (level) level--;
    else return register < run.program.functions[line.split(', ')[2]].parameters ? k : -1;
  }
  return -1;
}

export function writerOfCell(run, position, place) {
  const first = `addr ${place.split('.')[0]}.0`;
  for (let k = position - 1; k >= 0; k--) {
    const { thread, reply, pc } = run.events[k];
    const [, op, register] = reply === 'ran' && /^(store|new) r(\d+)/.exec(run.program.code[pc]) || [];
    if (op === 'store' && run.register(k, thread, register) === 'addr ' + place) return k;
    if (op === 'new' && run.register(k + 1, thread, register) === first) return k;
  }
  return -1;
}

// Goes back to the position after that event, and leaves word of it for the sentence there, and a note where the sentence is out of sight.
export const showWriter = (bench, name, find) => bench.alone(() => {
  const { run, position } = bench;
  if (!run) return;
  const k = find(run, position), { thread, pc } = run.events[k] || {};
  bench.show(k < 0 ? position : k + 1);
  const words = name + (k < 0 ? ' is as it began: nothing wrote it.'
    : ` was written by event ${k}, thread ${thread}: \x60${run.program.code[pc]}\x60.`);
  const back = el('button', { class: 'link', 'data-keep': 'from', onclick: () => bench.go(position) }, `back to ${position}`);
  bench.origin = { state: bench.state, told: [withCode(words), ' ', bench.position < position && [back, ' ']] };
  if (byId('say').getBoundingClientRect().bottom < 0) note(words.replaceAll('\x60', ''));
});
