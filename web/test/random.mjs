// Random actions by seed for as long as told (tests/by-hand/page). After each, what invariants.mjs says must be true: no script error, no
// text that undo does not bring back, a lecture as wide as its window, a run that is that of a fresh replay; now and then that redo brings
// back what undo has left, and a reload too. Memory must not grow. Where something is wrong, the last actions are told.
//   node --experimental-wasm-memory64 web/test/random.mjs [--firefox] [MINUTES [SEED]]      an hour, if nothing is said
import { openChromium } from './chromium.mjs';
import { openFirefox } from './firefox.mjs';
import { watch } from './invariants.mjs';
import { PAGE, READY } from './paths.mjs';

const [minutes = 60, seed = 1] = process.argv.slice(2).filter(word => !word.startsWith('--'));
const MINUTES = Number(minutes), SEED = Number(seed), inFirefox = process.argv.includes('--firefox');
let state = SEED >>> 0 || 1;
const below = n => { // as in schedules.js
  state ^= state << 13; state >>>= 0;
  state ^= state >>> 17;
  state ^= state << 5; state >>>= 0;
  return state % n;
};
const one = list => list[below(list.length)];
const EXAMPLES = ['counter.asl', 'lost.asl', 'walk.asl', 'move.asl', 'bank.asl', 'queue.asl', 'hash.asl', 'tree.asl', 'hit.asl',
  'nested.asl', 'counter.asm', 'sum.asm', 'unprotected.asm', 'unguarded-pair.asm'];
const STEPS = ['0', '1', '2', '3', '0', '1'];
const MOVES = ['ArrowLeft', 'ArrowRight', 'Home', 'End', 'b', 'B', 'o', 'O', 'h', '[', ']', 'f', 'F', 'w'];
const CHANGES = ['r', 'R', 'n', 'u', 'U', 'c', 'k', 'K', 't', 'T'];
const FURTHER = ['g', 'G', 'Y', 'g', 'G', '.', ',', 'p'];
const LOCKS = ['', 'root write\n', 'expr r1 write\n', 'expr r0 read\nclass 0 write\n', 'expr r9', 'list\n'];
const LESSON = 'lesson x\nexample ${NAME}\nstep a\nuntil ${CONDITION}\nstep b\nchoice c\nchoice d\nright d\n';
const CONDITIONS = ['some thread is blocked', 'all threads have ended', 'lists are enough', 'no object is fresh', 'thread 0 has met a fault', 'thread 9 is up'];
const LOOKS = ['m', 'l', '+', '-', 'L', 'd', 'A', 'a', ' ', 'y', 'M', 'V'];
const VIEWS = ['view=code,time,locks', 'view=heap,threads&size=13', 'lecture', 'lecture&size=25', 'theme=dark', 'view=time&lecture', 'keys=off&view=code'];
// What a person may have as a file: each kind, whole and broken.
const FILES = { 'warned.asl': 'global g; fn f(p) { atomic { x = *p; } return x; } fn main(t) { p = &g; atomic { q = *p; y = *q; } return t; }', 'mine.asl': 'global g; fn main(t) { p = &g; atomic { *p = t; } return t; }', 'bad.asl': 'fn main(t) { x = ; }',
  'both.workbench': 'workbench 1\ntitle both.asl\nthreads 3\nsteps 0*3 1 2\nat 4\nnote 1 here\ntext\nglobal g; fn main(t) { p = &g; atomic { *p = t; } return t; }',
  'broken.workbench': 'workbench 1\nk 99\ntext\n', 'cut.img': 'ASLM\x00\x02', 'cut.run': '\x00\x00\x00\x05ASLMxx', 'list.asm': 'version 2\nclasses 1\nglobal 0\n' };
const TEXTS = [' ', ';', '{', '}', 'x', 'global more;', 'atomic {', '<b>', '\n', '=', '*', '\u202e'];

const browser = await (inFirefox ? openFirefox : openChromium)();
const click = selector => `(() => { const all = [...document.querySelectorAll(${JSON.stringify(selector)})].filter(e => !e.disabled);
  if (all.length) all[${below(1000)} % all.length].dispatchEvent(new MouseEvent('click', { bubbles: true, clientX: 300, clientY: 200 })); })()`;
// Puts a text in the place of another, at random, or brings the example's text back.
const edit = () => `(() => { const t = document.getElementById('text'), at = ${below(100000)} % (t.value.length + 1);
  t.focus(); t.setRangeText(${JSON.stringify(one(TEXTS))}, at, Math.min(t.value.length, at + ${below(3)}), 'end');
  t.dispatchEvent(new Event('input')); t.blur(); })()`;
const HAND_IN = `(async () => { document.getElementById('hand-link')?.click(); await new Promise(done => setTimeout(done, 60));
  const link = document.getElementById('handed')?.textContent;
  document.getElementById('dialog').close();
  if (link) location.hash = link.slice(link.indexOf('#')); })()`;
const ACTIONS = [
  [30, () => browser.strike(one(STEPS))], [20, () => browser.strike(one(MOVES))], [16, () => browser.strike(one(CHANGES))],
  [5, () => browser.strike(one(LOOKS))],
  [3, () => browser.run(`(() => { const e = document.getElementById('example'); e.value = '${one(EXAMPLES)}'; e.dispatchEvent(new Event('change')); })()`)],
  [6, () => browser.run(edit())], [3, () => browser.run(click('#undo, #redo, #first, #last, #back, #forward'))],
  [6, () => browser.run(click('.head, .k, svg.lanes, #strip, #events tr, .link, .register, .cell'))],
  [2, async () => { await browser.strike(one(['x', 's', '?', 'j'])); await browser.sleep(20); await browser.strike('Escape'); }],
  [2, () => browser.run(`document.getElementById('slide').value = ${below(400)}; document.getElementById('slide').dispatchEvent(new Event('input'))`)],
  [8, () => browser.strike(one(FURTHER))],
  [2, () => browser.strike(one(['v', 'P']))],
  // why one class, and the order of two events: by keys, and their buttons
  [4, () => browser.strike(one(['X', 'q', 'q', 'Q', 'ArrowDown', 'ArrowUp', 'Escape']))],
  [2, () => browser.run(click('#s-classes button, #s-order button, #order, [data-keep^=class], #warnings .link'))],
  // a list by hand; an answer to a prediction, a choice, another button of a lesson or of the lists
  [4, () => browser.run(`(() => { const all = document.querySelectorAll('#own-lists textarea'), t = all[${below(100)} % all.length]; if (!t) return;
    t.focus(); t.value = ${JSON.stringify(one(LOCKS))}; t.dispatchEvent(new Event('input')); t.blur(); })()`)],
  [6, () => browser.run(click('#answer-close, .answers button, .choices button, #s-lesson .link, #s-own .link, #go button, #numbers .row, #gutter .row'))],
  // a line to go to; what was done is handed in, and opened
  [1, async () => { await browser.strike('I'); await browser.sleep(20); await browser.strike(one(['1', '5', '9'])); await browser.strike('Enter'); }],
  [1, async () => { await browser.strike('H'); await browser.sleep(30); await browser.run(HAND_IN); }],
  [1, () => browser.run(`workbench.loadFile('x.lesson', new TextEncoder().encode(${JSON.stringify(LESSON.replace('${NAME}', one(EXAMPLES)).replace('${CONDITION}', one(CONDITIONS)))}))
    .then(() => document.getElementById('dialog').close())`)],
  [1, () => browser.run(`location.hash = '#lesson=${1 + below(9)}'`)],
  [1, () => browser.run(`location.hash = '#example=${one(EXAMPLES)}&k=${below(9)}&threads=${1 + below(20)}&steps=00112210&at=${below(9)}'`)],
  [1, () => browser.size(one([420, 844, 1024, 1400]), one([390, 768, 1000]))],
];
// To the address before; where that is another page than this, this one is opened anew.
async function goBack() {
  await browser.run('setTimeout(() => history.back()), 1');
  await browser.sleep(150);
  const is = await browser.run('Boolean(window.workbench)').catch(() => false);
  if (!is) await browser.open(PAGE, READY);
}
// Opens a few files at once.
function openSome() {
  const names = Array.from({ length: 1 + below(3) }, () => one(Object.keys(FILES)));
  const files = names.map(name => `{ name: '${name}', bytes: new TextEncoder().encode(${JSON.stringify(FILES[name])}) }`);
  return browser.run(`workbench.openFiles([${files}]).catch(() => {})`);
}
// A dialog with a field: something is written there, and taken or not.
async function writeInto(key, field, words) {
  await browser.strike(key);
  await browser.sleep(20);
  await browser.run(`(() => { const f = document.getElementById('${field}'); if (f) f.value = ${JSON.stringify(words)}; })()`);
  await browser.strike(one(['Enter', 'Enter', 'Escape']));
}
const LONG = `global g; fn main(t) {\n${'  x = t + t;\n'.repeat(3000)}  return t; }`;
ACTIONS.push([3, openSome], [1, () => browser.strike('N')], [2, () => writeInto('z', 'note-words', one(['a note', '', '<b>', '\u202e']))],
  [2, () => writeInto('i', 'link', one(['x#example=bank.asl&k=1', 'x#lesson=2&steps=0101&at=2', 'x#asl=%%%', 'nothing']))],
  [1, () => browser.run(`location.hash = '#example=${one(EXAMPLES)}&threads=2&steps=0101&${one(VIEWS)}'`)],
  [1, () => browser.run("location.hash = '#example=counter.asl&threads=2'")],
  [1, () => browser.run(click('#trouble-close, #away button, #notes .link, #menu, #lists, #whole'))],
  [1, () => browser.run(`document.getElementById('editor').scrollTop = ${below(60000)}`)],
  [1, () => browser.run(`workbench.bench.load({ text: ${JSON.stringify(LONG)}, kind: 'asl', title: 'long.asl' }).then(() => 1)`)]);
// Files that are dropped; an address before; words that are typed by keys; New; the C program, and the lists.
ACTIONS.push([2, () => browser.run(`(() => { const given = new DataTransfer(), names = ${JSON.stringify([one(Object.keys(FILES)), one(Object.keys(FILES))])};
    const files = ${JSON.stringify(FILES)}; for (const name of names) given.items.add(new File([files[name]], name));
    dispatchEvent(new DragEvent('drop', { dataTransfer: given, cancelable: true })); })()`)],
  [1, goBack],
  [3, async () => { await browser.strike('e'); await browser.typed(one(['x', 'global q;\n', '; ', '\n\n', 'y = t;'])); await browser.strike('Escape'); }],
  [1, async () => { await browser.strike(one(['C', 'J'])); await browser.sleep(20); await browser.strike(one(['Enter', 'Escape'])); }],
  [1, async () => { await browser.run("document.getElementById('rename').click()"); await browser.sleep(20); await browser.run(`(() => { const f = document.getElementById('asked'); if (f) f.value = 'name ${below(9)}'; })()`); await browser.strike('Enter'); }]);
const whole = ACTIONS.reduce((sum, [weight]) => sum + weight, 0);
function action() {
  let at = below(whole);
  for (const [weight, act] of ACTIONS) { if (at < weight) return act; at -= weight; }
}

// What the browser was asked to do by the last actions, to be told where something is wrong.
const log = [];
const noted = name => { const ask = browser[name]; browser[name] = (...words) => { if (acting) log.push(`${name} ${words.join(' ').slice(0, 300)}`); return ask.apply(browser, words); }; };
let acting = false;
['strike', 'run', 'size', 'typed'].forEach(noted);
async function act() {
  log.push('--');
  if (log.length > 400) log.splice(0, 200);
  acting = true;
  await action()();
  acting = false;
}

// Megabytes of the page's own objects and buffers, and of the module's memory, which never shrinks; and elements. (Firefox does not tell
// the first.)
async function memory() {
  await browser.run("document.querySelector('dialog[open]')?.close(); 1");
  if (inFirefox) return { own: 0, module: JSON.parse(await browser.run('JSON.stringify(workbench.toolStatistics())')).bytes / 1e6, nodes: await browser.run("document.querySelectorAll('*').length") };
  await browser.send('HeapProfiler.collectGarbage');
  const { usedSize, embedderHeapUsedSize = 0, backingStorageSize = 0 } = (await browser.send('Runtime.getHeapUsage')).result;
  const { nodes } = (await browser.send('Memory.getDOMCounters')).result;
  const { bytes } = JSON.parse(await browser.run('JSON.stringify(workbench.toolStatistics())'));
  return { own: (usedSize + embedderHeapUsedSize + backingStorageSize) / 1e6, module: bytes / 1e6, nodes };
}

await browser.size(1400, 1000);
await browser.open(PAGE, READY);
const began = Date.now(), told = [];
let done = 0, most = 0;
const look = await watch(browser);
let wrong = null;
process.on('uncaughtException', async error => { console.log(error, log.slice(-20).join('\n')); await browser.close(); process.exit(1); });
for (let next = 0; Date.now() - began < MINUTES * 60000 && !browser.errors.length && !wrong; done++) {
  await act();
  if (done % 4 === 0) await browser.frames();
  // (some actions in a row, so that they come while another is under way)
  if (below(3)) log.push('== looked') && (wrong = await look(['undo', 'reload'][below(25)]));
  if (Date.now() - began < next) continue;
  next = Date.now() - began + MINUTES * 60000 / 30;
  const { own, module, nodes } = await memory();
  told.push(own);
  most = module;
  const minutes = ((Date.now() - began) / 60000).toFixed(1);
  console.log(`${minutes} min, ${done} actions: ${own.toFixed(1)} MB of the page, ${module.toFixed(1)} MB of the module, ${nodes} nodes`);
}
const middle = list => [...list].sort((a, b) => a - b)[list.length >> 1] || 0;
const early = middle(told.slice(told.length / 6, told.length / 2)), late = middle(told.slice(told.length / 2));
console.log(`seed ${SEED}: ${done} actions, ${browser.errors.length} errors; ${early.toFixed(1)} MB in the first half, ${late.toFixed(1)} MB in the second`);
browser.errors.slice(0, 5).forEach(text => console.log(text));
if (wrong) console.log('the last actions:\n' + log.slice(-60).join('\n') + '\nWRONG:', wrong);
const grew = late > early * 1.25 + 8 || most > 512;
if (grew) console.log('memory grows');
await browser.close();
process.exit(browser.errors.length || grew || wrong ? 1 : 0);
