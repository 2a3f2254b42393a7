// Files that the toolchain makes of the source, with the lists that it infers: the C program, and all lists as one JSON document.
// Tried by web/test/derived.mjs.

import { byId, count, el } from './dom.js';
import { unlessDropped } from './aside.js';
import { download } from './files.js';
import { note, openDialog } from './page.js';
import { cText, hasCommand, listsText } from './toolchain.js';

export const DERIVED = { c: { command: 'c', ending: '.c', textOf: cText, what: 'C program' },
  lists: { command: 'lists', ending: '.json', textOf: listsText, what: 'document of the lists' } };

export const baseOf = bench => bench.title.replace(/\.\w+$/, '') || 'program';
// Why it cannot be had now; nothing where it can.
function lackOf(bench, { command, what }) {
  if (!hasCommand(command)) return `The module of this page makes no ${what}.`;
  return bench.kind === 'asl' ? '' : `There is no ${what} of an assembly text, only of a source.`;
}
export const canDerive = (bench, name) => !bench.refusal && !lackOf(bench, DERIVED[name]);

async function save(bench, { ending, textOf, what }, k) {
  const name = baseOf(bench) + ending, own = bench.ownBuilt, { text, refusal } = await textOf(bench.text, k);
  if (refusal) return note(`There is no ${what}: the text does not compile.`);
  download(name, text);
  note(`${name}, the ${what}, is saved` + (own ? ': it has the inferred lists, not yours.' : '.'));
}
// The file with the k of the page, and with as many operations as are accepted: buttons.
const AUTO = 'auto';
export const deriveButtons = (bench, name, done = () => {}) => [bench.k, AUTO].map(k => el('button', { 'data-keep': `derive-${name}-${k}`,
  title: k === AUTO ? 'As many operations of a path as are accepted' : `Paths of at most ${count(k, 'operation')}`,
  onclick: () => { unlessDropped(save(bench, DERIVED[name], k)); done(); } },
`Save ${baseOf(bench)}${DERIVED[name].ending}, k ${k}`));

// Asks for the k.
export function derive(bench, name) {
  const lack = bench.refusal ? `There is no ${DERIVED[name].what}: the text does not compile.` : lackOf(bench, DERIVED[name]);
  if (lack) return note(lack);
  openDialog('Save the ' + DERIVED[name].what, el('p', { class: 'files' }, deriveButtons(bench, name, () => byId('dialog').close())),
    el('p', { class: 'soft' }, 'With k auto paths have as many operations as are accepted, 8 at most.',
      bench.ownBuilt ? ' The lists are the inferred ones, not yours.' : null));
  byId('dialog-body').querySelector('button').focus();
}
