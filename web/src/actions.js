// What the buttons and keys do to the bench.
// Tried by web/test/using.mjs and web/test/moving.mjs.

import { writeAddress } from './address.js';
import { unlessDropped } from './aside.js';
import { bench, due, events, examples, isOver } from './desk.js';
import { byId, el } from './dom.js';
import { unlessForbidden } from './extras.js';
import { lessonState } from './lessons.js';
import { openFileList, showOpened } from './opening.js';
import { openAsking, openDialog, note } from './page.js';
import { enterEditor } from './panels/editor.js';
import { lessonWords } from './panels/lesson.js';
import { listAt } from './program.js';
import { atRandom, roundRobin, untilBlocked } from './schedules.js';
import { openSharing } from './sharing.js';
import { sectionAt } from './stretches.js';
import { whyText } from './why.js';

const blockedSteps = () => events().filter(event => event.reply === 'blocked').length;

// Another k makes the same schedule again: what that changes is told.
export const chooseK = unlessForbidden('k', async k => {
  if (bench.kind !== 'asl' || k < 0 || k > 8 || k === bench.k) return;
  const before = blockedSteps(), old = bench.k;
  if (!await bench.setK(k) || !events().length || bench.refusal) return;
  note(`Of the same ${events().length} steps ${blockedSteps()} are blocked at k ${k}, and ${before} at k ${old}.`);
});

const most = () => Math.max(1, Math.min(10000, Number(byId('most').value) || 200));
const tell = async steps => { if (!(await steps) && bench.run && isOver()) note('Nothing to step: all threads have ended.'); };
export const chooseThreads = unlessForbidden('threads', n => bench.setThreads(n));
export const robin = unlessForbidden('robin', () => tell(roundRobin(bench, most())));
export const until = unlessForbidden('until', () => tell(untilBlocked(bench, most())));
export const random = unlessForbidden('random', () => tell(atRandom(bench, most(), Number(byId('seed').value) || 1)));

// To the next event that fits, or to the last one before the position, one event at a time.
const seek = (fits, way) => bench.alone(() => {
  const list = events();
  for (let k = bench.position + (way > 0 ? 0 : -2); k >= 0 && k < list.length; k += way) if (fits(list[k])) return bench.show(k + 1);
  note(`There is none ${way > 0 ? 'after' : 'before'} this.`);
});
// To the next or the last event with this reply, as blocked.
export const replies = (reply, way) => () => seek(event => event.reply === reply, way);
export const sameThread = way => () => { const t = (bench.last || bench.next || {}).thread; seek(event => event.thread === t, way); };

export function toHolder() {
  const { last } = bench;
  if (!last || last.reply !== 'blocked') return;
  const k = bench.position - 1, clash = bench.run.request(k, last.thread).clashes[0];
  const section = clash && sectionAt(bench.stretches, clash.thread, k);
  if (section) bench.go(section.from + 1);
}

export function toWriter() {
  const at = document.activeElement;
  if (at.matches('.register,.cell')) at.click(); else note('Go to a register or a cell by Tab first.');
}

export function play() {
  if (due.player) { clearInterval(due.player); due.player = 0; } else {
    if (bench.position === events().length) bench.go(0);
    due.player = setInterval(() => (bench.position < events().length ? bench.move(1) : play()), 800);
  }
  byId('play').textContent = due.player ? 'Pause' : 'Play';
}

export const openWhy = (section, all) => unlessDropped(whyText(bench, section, all).then(({ words, more }) =>
  openDialog('Why these locks', el('pre', { class: 'why' }, words),
    more && el('button', { id: 'why-all', onclick: () => openWhy(section, true) }, 'Show all of them'))));

// The section that the shown event is of; else the first.
export function whyHere() {
  if (!bench.program || !bench.program.lists.length) return;
  const { last } = bench;
  const section = last && sectionAt(bench.stretches, last.thread, bench.position);
  openWhy(section ? listAt(bench.program, section.pc) : last && last.pc >= 0 && listAt(bench.program,
    last.pc) >= 0 ? listAt(bench.program, last.pc) : 0);
}

export const openShare = async () => openSharing(bench, await writeAddress(), lessonWords(lessonState()));

export const loadFileList = list => openFileList(bench, examples, list);
export const loadExample = name =>
  (name[0] === '@' ? showOpened(bench, Number(name.slice(1))) : bench.load({ ...examples[name], title: name }));

// What is new in the place of the present program: the least one.
export async function openNew() {
  await bench.load({ text: 'fn main(t) {\n  return t;\n}\n', kind: 'asl', title: 'untitled.asl', schedule: [], lesson: null });
  enterEditor();
}
const named = (words, kind) => words.replace(/[\p{Cf}\p{Cc}\s\\/:*?"<>|]+/gu, ' ').trim().replace(/\.as[lm]$/, '') + '.' + kind;
export const rename = () => openAsking('The name of the program', 'name', bench.title, words => {
  if (words.trim()) bench.rename(named(words, bench.kind));
});
