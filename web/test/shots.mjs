// Pictures to look at, in a folder: node web/test/shots.mjs FOLDER [WORD..]
// Each PLACE is taken in the look `light`, and those of SEEN in each look; a WORD is of the names, as in `queue-dark`.
import { deflateRawSync } from 'node:zlib';
import { openChromium } from './chromium.mjs';
import { PAGE, READY } from './paths.mjs';

const [folder, ...wanted] = process.argv.slice(2);
const type = (from, to) => `(() => { const t = document.getElementById('text'); t.focus(); t.value = t.value.replace('${from}', '${to}');
  t.dispatchEvent(new Event('input')); t.blur(); })()`;
const pack = text => deflateRawSync(text).toString('base64url');
const OWN = pack(JSON.stringify([null, 'expr r0 read\nexpr r0 * write\nexpr r1 read\n']));
const ANSWER = pack('answer A lock, and who waits\nby Ada\nlesson 1\nstep 1\nsteps 0*2\nat 2\nstep 2\nsteps 0*2 1\nat 3\n');
const BLOCKED = '#example=counter.asl&k=3&threads=2&steps=0011&at=4';
const PLACES = {
  first: {},
  start: { url: '#example=move.asl&k=3&threads=2' },
  blocked: { url: BLOCKED },
  hash: { url: '#example=hash.asl&k=3&threads=3', keys: ['R'], run: 'workbench.bench.go(96)' },
  queue: { url: '#example=queue.asl&k=3&threads=3', keys: ['R', 'Home', 'b', 'b', 'b'] },
  bank: { url: '#example=bank.asl&k=3&threads=4', keys: ['R'], run: 'workbench.bench.go(120)' },
  many: { url: '#example=tree.asl&k=3&threads=64', keys: ['R'] },
  fault: { url: '#example=unprotected.asm&threads=1&steps=00&at=2' },
  error: { url: BLOCKED, run: type('y = x + one;', 'y = x + 1;') },
  lesson: { url: '#lesson=3', keys: ['1', '1', '0'] },
  lecture: { url: '#example=walk.asl&k=3&threads=2&steps=000000000111&at=12&lecture', keys: ['A', 'A'] },
  'lecture-lists': { url: '#example=walk.asl&k=3&threads=2&steps=000000000111&at=12&lecture', keys: ['y'] },
  'lecture-lesson': { url: '#lesson=3&lecture', keys: ['0', '1'] },
  'lecture-more': { url: BLOCKED + '&lecture', keys: ['M'] },
  embedded: { url: BLOCKED + '&view=code,time,locks&size=13' },
  opening: { url: BLOCKED, keys: ['i'] },
  refused: { url: BLOCKED, run: "workbench.openFiles([{ name: 'cut.img', bytes: new TextEncoder().encode('ASLM') }])" },
  notes: { url: BLOCKED, run: "workbench.bench.setNotes({ 4: 'one at a time', 8: 'written here' })" },
  selection: { url: '#example=hash.asl&k=3&threads=2', keys: ['A', 'A', 'e'], run: "document.getElementById('text').setSelectionRange(14, 190)" },
  why: { url: '#example=walk.asl&k=3&threads=2&steps=0001&at=4', click: '#sections .matrix:nth-child(2) [data-keep^=why]' },
  share: { url: BLOCKED, keys: ['s'] },
  keys: { url: BLOCKED, keys: ['?'] },
  lessons: { url: BLOCKED, keys: ['j'] },
  own: { url: '#example=bank.asl&k=0&threads=2&own=' + OWN, keys: ['r', 'f'] },
  predict: { url: '#example=counter.asl&k=3&threads=2&steps=001&at=3&predict', keys: ['1', 'b', '0'] },
  flags: { url: '#lesson=7', keys: ['r'] },
  answer: { url: '#answer=' + ANSWER },
};
const LOOKS = {
  light: { w: 1400, h: 1000 },
  dark: { w: 1400, h: 1000, dark: true },
  laptop: { w: 1280, h: 800 },
  'laptop-dark': { w: 1280, h: 800, dark: true },
  phone: { w: 390, h: 844, whole: true },
  'phone-dark': { w: 390, h: 844, dark: true, whole: true },
  narrow: { w: 420, h: 900, whole: true },
  landscape: { w: 844, h: 390, whole: true },
  projector: { w: 1024, h: 768 },
  wide: { w: 1920, h: 1080 },
  hd: { w: 1280, h: 720 },
  wxga: { w: 1366, h: 768 },
  'wxga-plus': { w: 1440, h: 900 },
  slide: { w: 800, h: 450 },
  zoom: { w: 700, h: 500, scale: 2, whole: true },
  print: { w: 760, h: 1100, print: true, whole: true },
  deuteranopia: { w: 1400, h: 1000, vision: 'deuteranopia' },
  tritanopia: { w: 1400, h: 1000, vision: 'tritanopia' },
  readme: { w: 1240, h: 660 },
  'readme-dark': { w: 1240, h: 660, dark: true },
};
const SEEN = ['blocked', 'queue'];

const shots = Object.keys(PLACES).flatMap(place => Object.keys(LOOKS).map(look => ({ name: `${place}-${look}`, place, look })));
const PROJECTORS = ['hd', 'wxga', 'wxga-plus', 'wide'];
const isWanted = ({ name, place, look }) => (wanted.length ? wanted.some(word => name.includes(word))
  : place.startsWith('lecture') ? PROJECTORS.includes(look) : place === 'embedded' ? look === 'slide'
  : look === 'light' || SEEN.includes(place) && !look.startsWith('readme') && !PROJECTORS.slice(0, 3).includes(look) && look !== 'slide');

const CALM = '(async () => { while (workbench.isBusy()) await new Promise(done => setTimeout(done, 10)); })()';
// What the page does after a pause, as to ask for the blocked steps at each k, is over.
const REST = `new Promise(done => setTimeout(done, 700)).then(() => ${CALM})`;

async function take(browser, { name, place, look }) {
  const { url = '', keys = [], run, click } = PLACES[place], { w, h, scale = 1, dark, vision, print, whole } = LOOKS[look];
  await browser.size(w, h, scale);
  await browser.media(Boolean(dark));
  await browser.vision(vision || 'none');
  await browser.open(PAGE + url, READY);
  for (const key of keys) { await browser.key(key); await browser.run(CALM); }
  if (run) await browser.run(run);
  if (click) await browser.run(`document.querySelector('${click}').click()`);
  await browser.run(REST);
  await browser.frames();
  if (print) { await browser.media(false, 'print'); await browser.run("dispatchEvent(new Event('beforeprint'))"); await browser.sleep(200); }
  await browser.picture(`${folder}/${name}.png`, Boolean(whole));
}

const browser = await openChromium();
for (const shot of shots.filter(isWanted)) await take(browser, shot);
console.log('errors', browser.errors);
await browser.close();
