// What comes in from without: files, several at once and in either order, and links. What was opened stays at hand in the list of
// examples. A run finds its source among those that were opened, the text that is open, and the examples.
// Tried by web/test/opening.mjs.

import { byId, count, el } from './dom.js';
import { assemblyOf, readFile, sourceOf, textOf } from './files.js';
import { closeTrouble, tellTrouble } from './panels/trouble.js';
import { note, openDialog } from './page.js';
import { Dropped, unlessDropped } from './aside.js';
import { chosen, openedHere, programsOf } from './lessons.js';
import { lessonOf, tellRefused } from './panels/lesson.js';
import { wordsOfFragment } from './share.js';

const MOST_OPENED = 200;
export const opened = []; // { name, whole }, and the image of one that has found no source
// Other kinds of texts: functions of a name and a text, which answer nothing where it is none of theirs, else what is to be done; that
// answers what is wrong.
export const readers = [];

const clean = words => words.replace(/\p{Cf}/gu, '');

function remember(entry) {
  const at = opened.findIndex(({ name }) => name === entry.name);
  if (at >= 0) opened[at] = entry; else opened.push(entry);
  if (opened.length > MOST_OPENED) opened.shift();
  const group = byId('opened');
  group.hidden = false;
  group.replaceChildren(...opened.map(({ name }, i) => Object.assign(document.createElement('option'),
    { value: '@' + i, textContent: clean(name) })));
  return entry;
}

const known = (bench, examples) => [
  ...opened.map(({ whole }) => whole).reverse(),
  ...(bench.text ? [{ text: bench.builtText || bench.text, title: bench.title, kind: bench.kind }] : []),
  ...openedHere().reverse().flatMap(programsOf), ...(chosen() ? programsOf(chosen()) : []),
  ...Object.entries(examples).map(([title, { text, kind }]) => ({ text, title, kind }))]
  .filter(({ text, kind }, i, all) => kind === 'asl' && all.findIndex(other => other.text === text) === i);

// A run or an image with the source that makes it, or as assembly.
async function withSource({ name, image, run = {} }, sources) {
  const source = await sourceOf(image, sources);
  if (source) return { name, whole: { ...source, ...run } };
  tellTrouble(name, `its program is that of none of the open sources${run.schedule ? ', so the run is shown in assembly' : ''}. `
    + 'Open its source, before it, with it or after it, and it is shown in the source’s words.', false);
  return { name, whole: { ...await assemblyOf(name, image), ...run }, image, run };
}

async function readAll(files) {
  const parts = [];
  for (const { name, bytes } of files) {
    try {
      const text = new TextDecoder().decode(bytes), done = readers.map(reader => reader(name, text)).find(Boolean);
      parts.push(done && textOf(bytes) ? { name, done } : await readFile(name, bytes));
    } catch (error) { refuse(name, error); }
  }
  return parts;
}
function refuse(name, error) {
  if (error instanceof Dropped) throw error;
  tellTrouble(name, error.message);
}

// Opens files, each { name, bytes }: sources, lessons and answers first. What is shown then is the last run, or else the last source.
export async function openFiles(bench, examples, files) {
  const parts = await readAll(files), shown = [];
  let others = parts.length; // that were opened
  for (const { name, whole } of parts) if (whole) shown.push(remember({ name, whole }));
  const refused = [];
  for (const { name, done } of parts) {
    const wrong = done ? await done() : [];
    if (wrong.length) { refused.push({ name, wrong }); others--; }
  }
  const sources = known(bench, examples), wanting = opened.filter(({ image }) => image);
  for (const part of parts.filter(({ image }) => image)) {
    try { shown.push(remember(await withSource(part, sources))); } catch (error) { refuse(part.name, error); others--; }
  }
  for (const orphan of shown.some(({ whole }) => whole.kind === 'asl') ? wanting : []) {
    const source = await sourceOf(orphan.image, sources);
    if (source) shown.push(remember({ name: orphan.name, whole: { ...source, ...orphan.run } }));
  }
  if (refused.length) tellRefused(refused, others);
  const last = shown.findLast(({ whole }) => whole.schedule) || shown.at(-1);
  if (last) await show(bench, last, shown.length);
}

async function show(bench, { name, whole }, among) {
  const lesson = whole.lessonWords && await lessonOf(wordsOfFragment(whole.lessonWords));
  await bench.load({ schedule: [], ...whole, ...(lesson ? { lesson } : {}) });
  const more = among > 1 ? `, and ${among - 1} more in the list of examples` : '';
  if (whole.schedule?.length) note(`${clean(name)}: ${count(whole.schedule.length, 'step')} of ${bench.title}${more}.`);
  else if (more) note(clean(name) + more + '.');
}
export const showOpened = (bench, number) => unlessDropped(show(bench, opened[number], 1));

export async function openFileList(bench, examples, list) {
  const files = [];
  for (const file of list) files.push({ name: file.name, bytes: new Uint8Array(await file.arrayBuffer()) });
  await unlessDropped(openFiles(bench, examples, files));
}

// What may be the fragment of a link among words that were pasted, of this page or of another place: all behind its \x60#\x60, then what
// stands before the first blank. Mails break a link into lines, and people put marks round it.
export const hasFragment = words => /#\S/.test(words);
export function fragmentsOf(words) {
  const all = words.replace(/^[>\s]+/gm, ''), at = all.search(/#[a-z-]+=/), said = all.slice(at < 0 ? all.indexOf('#') : at);
  return [said.replace(/>.*/s, '').replace(/\s/g, ''), /^\S*/.exec(said)[0]].map(link => link.replace(/[\s.,;:!?)>\]"'”’]+$/, ''));
}

export function openOpening(chooseFiles, openLink) {
  const field = el('input', { id: 'link', type: 'text', size: 48, autocomplete: 'off', spellcheck: 'false', 'aria-label': 'Link',
    placeholder: '…workbench.html#example=…', onkeydown: event => { if (event.key === 'Enter') take(); } });
  const take = () => {
    const words = byId('link').value;
    byId('dialog').close();
    closeTrouble();
    if (hasFragment(words)) openLink(words);
    else tellTrouble('The link', 'it has no \x60#\x60, behind which a link says what to open. Copy the whole of it.');
  };
  openDialog('Open', el('p', {}, el('button', { id: 'choose-files', onclick: () => { byId('dialog').close(); chooseFiles(); } },
    'Choose files …'), ' or drop them anywhere on the page: sources (.asl), assembly (.asm), runs (.run), images (.img), both in one '
    + '(.workbench), lessons (.lesson), answers to them (.answer); several at once, in any order.'),
  el('p', {}, el('label', {}, 'or paste a link: ', field), ' ', el('button', { id: 'open-link', onclick: take }, 'Open the link')));
  byId('link').focus();
}
