// Share: a link, an embedding, command lines, and files of what is seen.
// Tried by web/test/shares.mjs and web/test/own.mjs.

import { byId, el } from './dom.js';
import { unlessDropped } from './aside.js';
import { baseOf, canDerive, deriveButtons, DERIVED } from './derived.js';
import { download, copyText } from './files.js';
import { linkHint, note, openDialog } from './page.js';
import { pictureOf, titleOf } from './picture.js';
import { boxPicture } from './boxpicture.js';
import { commandLines } from './share.js';
import { workFile } from './workfile.js';

const copy = (label, text) => el('div', { class: 'share' }, el('b', {}, label), el('pre', { tabindex: 0 }, text),
  el('button', { onclick: async () => note((await copyText(text)) ? 'Copied.' : 'Could not copy.') }, 'Copy'));
const file = (name, bytesOf) => el('button',
  { onclick: () => unlessDropped((async () => download(name, await bytesOf()))()) }, 'Save ' + name);

const byCommand = ({ ownBuilt }, base) => 'The same by command line'
  + (ownBuilt ? `. These lists are by hand: save ${base}.img (or the assembly text, ${base}.asm, for asl asm), then` : '');

// For a page of slides: the panels that go into 800 by 450.
const embedding = link => `<iframe width="800" height="450" src="${link.replace(/&(view|lecture|size|keys)\b[^&]*/g, '')}`
  + '&view=code,time,locks&size=13"></iframe>';

// `fragment` is of what is seen; `lessonWords` of its lesson.
export function openSharing(bench, fragment, lessonWords) {
  const base = baseOf(bench), link = location.href.replace(/#.*/s, '') + fragment;
  const { run } = bench, ran = run && run.length > 0;
  const whole = run && titleOf(bench) + ', after ' + bench.position;
  openDialog('Share', copy('Link', link), linkHint(), ran ? copy(byCommand(bench, base), commandLines(bench)) : null,
    copy('For a page of slides', embedding(link)),
    el('p', { class: 'files' },
      file(base + '.workbench', () => workFile(bench.moment(), lessonWords)),
      ran ? [file(base + '.run', () => run.file()), file(base + '.svg', () => pictureOf(bench))] : null,
      run ? [file(base + '-locks.svg', () => boxPicture(byId('s-locks'), byId('locks'), 'Lock tree: ' + whole)),
        file(base + '-heap.svg', () => boxPicture(byId('s-heap'), byId('heap'), 'Heap: ' + whole)),
        file(base + '.img', () => bench.image), bench.ownBuilt ? file(base + '.asm', () => bench.asm) : null] : null,
      Object.keys(DERIVED).filter(what => canDerive(bench, what)).map(what => deriveButtons(bench, what)),
      file(`${base}.${bench.kind}`, () => bench.text)));
}
