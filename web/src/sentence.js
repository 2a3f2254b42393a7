// What the last event did, in one sentence; and which comes next.
// Tried by web/test/words.mjs and web/test/using.mjs.

import { el, chip, count } from './dom.js';
import { differenceAt } from './difference.js';
import { sectionAt } from './stretches.js';
import { listAt } from './program.js';
import { BRIEFLY } from './modes.js';
import { classLink } from './panels/classes.js';

const strong = words => el('b', {}, words);
const code = words => el('code', {}, words);

export function sentence(bench, openWhy) {
  if (!bench.position) return start(bench);
  const event = bench.last, k = bench.position - 1;
  const told = [strong(`Event ${k}: `), chip(event.thread), ' '];
  if (event.reply === 'ended') return [...told, 'had ended before; nothing happens.'];
  if (event.reply === 'blocked') return [...told, ...blocked(bench, k, event, openWhy)];
  told.push(code(bench.names.statement(event.pc)), ` (${bench.names.where(event.pc)}): `);
  if (event.reply === 'fault') return [...told, ...fault(bench, event, k)];
  return [...told, ...ran(bench, event), '.'];
}

function start(bench) {
  const threads = bench.run.threads === 1 ? 'One thread stands' : `${bench.run.threads} threads stand`;
  const last = Math.min(bench.run.threads, 10) - 1;
  const keys = last ? [el('kbd', {}, '0'), last > 1 ? ' to ' : ' or ', el('kbd', {}, String(last))] : [el('kbd', {}, '0')];
  return [strong('Start. '), threads, ' at the entry of ', code(bench.names.function(bench.program.entry)),
    '. Press ', keys, ' or click a lane’s head to step a thread.'];
}

// T1 blocked at atomic (line 6): it asks X at leaf 0.0 (count) ..
function blocked(bench, k, event, openWhy) {
  const told = [el('span', { class: 'is-blocked' }, '⊠ blocked'), ' at ', code(bench.names.statement(event.pc)),
    ` (${bench.names.where(event.pc)})`];
  const { clashes } = bench.run.request(k, event.thread);
  if (!clashes.length) return [...told, '.'];
  const { thread, node, asks, holds } = clashes[0];
  told.push(': it asks ', strong(asks), ` (${BRIEFLY[asks]}) at `, strong(bench.names.node(node)), ' ', whyLink(bench, event, openWhy),
    node.startsWith('class ') ? [' ', classLink(bench, Number(node.slice(6)), 'asks')] : '');
  told.push('; ', chip(thread), ' holds ', strong(holds), ` (${BRIEFLY[holds]}) there`);
  const since = sectionAt(bench.stretches, thread, k);
  if (since) told.push(' ', el('button',
    { class: 'link', 'data-keep': 'since', title: 'To the event that took it (h)', onclick: () => bench.go(since.from + 1) },
    'since event ' + since.from));
  return [...told, elsewhere(bench, clashes), '.', el('span', { class: 'long' }, ' Nothing changed; it must try again.')];
}

// The clashes at the other nodes with the same holder, and how many more threads are in the way.
function elsewhere(bench, [first, ...rest]) {
  const also = rest.filter(({ thread }) => thread === first.thread), others = new Set(rest.map(c => c.thread)).size - (also.length ? 1 : 0);
  const at = ({ node, asks, holds }) => ['; at ', strong(bench.names.shortNode(node)), ', too: ', strong(asks), ' against ', strong(holds)];
  return [also.map(at),
    others ? ` (and ${count(others, 'more thread')} in the way)` : ''];
}

// Why the list of the section asks that, which is known of a source.
const whyLink = (bench, event, openWhy) => (bench.kind !== 'asl' ? '' : el('button', { class: 'link', 'data-keep': 'why-it-asks',
  title: 'Why this section needs that lock (x)', onclick: () => openWhy(listAt(bench.program, event.pc)) }, 'why'));

const FAULTS = {
  Type: 'an operand is of the wrong kind: a number where an address is needed, or the other way round',
  Null: 'the address is null', Bounds: 'that is outside the object', Full: 'there are 65,536 objects already',
  Stack: 'the thread has 256 frames already', Open: 'the thread ends inside a section',
  Deep: '255 sections are open already', NoSection: 'no section is open',
};

function fault(bench, event, k) {
  const lock = bench.names.missing(event.fault);
  const told = [el('span', { class: 'is-fault', title: event.fault }, lock ? '▲ fault' : '▲ fault ' + event.fault), ': '];
  if (lock) {
    const held = [...bench.run.view(k).threads[event.thread].held].map(([node, mode]) => `${mode} at ${bench.names.node(node)}`);
    told.push(strong(lock), `; the thread held ${held.join(', ') || 'nothing'}`);
  } else told.push(FAULTS[event.fault] || '', operands(bench, event, k));
  return [...told, '. The thread fails', lock ? ' and keeps nothing.' : '.'];
}

// The values that the instruction had before it: `; x is 1, q is → last`.
function operands(bench, event, k) {
  const line = bench.program.code[event.pc], all = [...line.matchAll(/r(\d+)/g)].map(m => Number(m[1]));
  const read = /^(store|out|jz|ret) /.test(line) ? all : all.slice(1);
  const { registers } = bench.run.view(k).threads[event.thread];
  const told = read.map(r => `${bench.names.registerAt(event.pc, r)} is ${bench.names.value(registers[r])}`);
  return told.length ? '; ' + told.join(', ') : '';
}

function ran(bench, event) {
  const { names, state, run } = bench;
  const change = differenceAt(run, bench.position);
  const thread = state.threads[event.thread];
  const said = [];
  const say = (...parts) => said.push(said.length ? ['; ', ...parts] : parts);
  if (event.reply === 'out') say(el('span', { class: 'is-out' }, '◆ prints ' + names.value(event.value)));
  if (change.op === 'acq') say(...entering(bench, event, change));
  if (change.op === 'rel') say(event.after ? 'leaves an inner section; the locks stay' : 'leaves the section, gives all its locks back');
  if (change.op === 'call') say('calls ', code(names.functionAt(thread.pc)));
  for (const o of change.objects) {
    const fresh = thread.fresh.includes(o) ? ', fresh: it needs no lock before the section ends' : '';
    const of = run.classOf(bench.position, o);
    say(`makes ${names.object(o)}, ${count(state.objects[o].length, 'cell')}, class ${of} `, classLink(bench, of, 'made', 'why'), fresh);
  }
  for (const r of change.objects.length ? [] : change.registers)
    say(code(names.registerAt(thread.pc, r)), ' is now ', strong(names.value(thread.registers[r])));
  for (const cell of change.cells) say('cell ', code(names.cell(cell)), ' is now ', strong(valueOf(state, names, cell)));
  if (thread.status === 'done') say('returns ', strong(names.value(thread.value)), ' and ends');
  if (!said.length) say('continues at ', names.where(thread.pc));
  return said;
}

function valueOf(state, names, cell) {
  const [o, f] = cell.split('.').map(Number);
  return names.value(state.objects[o][f]);
}

function entering(bench, event, change) {
  if (event.depth) return ['enters an inner section, which takes no locks'];
  if (!change.granted.length) return ['enters the section; its list names no cell now, so it holds nothing'];
  const order = ([node]) => (node.startsWith('leaf') ? 0 : node.startsWith('class') ? 1 : 2);
  const granted = [...change.granted].sort((a, b) => order(a) - order(b));
  return ['enters the section; granted ',
    granted.map(([node, mode], i) => [i ? ', ' : '', strong(mode), ' at ', bench.names.node(node)])];
}

export function nextSentence(bench) {
  const { next, names } = bench;
  if (!next && !bench.position && bench.run.threads > 1) return ['To see a thread wait, press ', el('kbd', {}, 'n'),
    ' or “Until blocked”: the threads step in turn until one must.'];
  if (!next && bench.state.threads.every(thread => thread.status !== 'runs')) return ['All threads have ended.'];
  if (!next) return bench.position ? ['The run ends here; step any thread to go on.'] : [];
  return ['Next: ', chip(next.thread), ' ',
    next.pc >= 0 ? [code(names.statement(next.pc)), ` (${names.where(next.pc)})`] : 'once more, though it has ended'];
}
