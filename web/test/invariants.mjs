// What must be true of the page after each action, whatever it was: for random.mjs.
//   const look = await watch(browser);  await look(words)      answers in words what is not as it must be, or null
import { openAsl } from '../module.mjs';
import { READY } from './paths.mjs';
import { comes } from './socket.mjs';

// In the page: until nothing is asked of the toolchain any more, and all is drawn.
const CALM = `(async () => { const frame = () => new Promise(done => { requestAnimationFrame(() => setTimeout(done)); setTimeout(done, 2000); });
  const late = performance.now() + 60000;
  for (let i = 0; performance.now() < late && (i < 1 || workbench.isBusy() || workbench.bench.typing && workbench.bench.text !== workbench.bench.builtText && !workbench.bench.refusal); i++) await frame();
  await frame(); })()`;
// In the page: all that a person has made, how wide the page is, what undo can bring back, and the run.
const SEEN = `(async () => { const { bench, tellView } = workbench, { lesson, ...moment } = bench.moment(), root = document.documentElement;
  if (moment.own.every(list => list == null)) moment.own = []; // each as inferred
  const known = new Set(bench.past.before.map(it => it.text)), { run } = bench;
  // (undo takes a text to where redo finds it, until something else is done)
  const undone = window.undone || !bench.watched;
  if (!bench.watched) { const { swap } = bench; bench.watched = true; bench.swap = way => { window.undone = true; return swap.call(bench, way); }; }
  window.undone = false;
  const bytes = async () => btoa(Array.from(await run.file(), byte => String.fromCharCode(byte)).join(''));
  return JSON.stringify({ moment, done: lesson && [lesson.file || lesson.number, lesson.done], typing: bench.past.typing, field: document.getElementById('text').value,
    undone, known: undone || window.seenText === undefined || bench.text === window.seenText || known.has(window.seenText), refused: Boolean(bench.refusal),
    wide: root.scrollWidth - innerWidth, lecture: document.body.classList.contains('lecture'), width: innerWidth, height: innerHeight,
    wanted: Boolean(bench.wanted), undo: bench.past.before.length, dialog: Boolean(document.querySelector('dialog[open]')),
    run: run && run.length && run.length <= 1500 ? { length: run.length, position: bench.position, view: tellView(bench.state), file: await bytes() } : null }); })()`;
// In the page: what reaches beyond the window, but for what is scrolled by itself.
const WIDE = `[document.body.className, document.documentElement.style.cssText, document.getElementById('position').dataset.brief].join(' / ') + ': '
  + [...document.querySelectorAll('body *')].filter(e => e.getBoundingClientRect().width && e.getBoundingClientRect().right > innerWidth + 1
  && !e.closest('.scroll, #editor, #lanes, dialog')).map(e => e.tagName + '#' + e.id + '.' + e.className).slice(0, 8).join(' ')`;
const same = (a, b) => JSON.stringify(a) === JSON.stringify(b);
const differing = (a, b) => Object.keys(a).filter(name => !same(a[name], b[name])).map(name => `${name}: ${JSON.stringify(a[name]).slice(0, 120)} / ${JSON.stringify(b[name]).slice(0, 120)}`).join('; ');

// A run of the page is what the toolchain makes of its run file anew: as many events, and the same state where one stands.
function replayed(asl, { length, position, view, file }) {
  const bytes = Buffer.from(file, 'base64'), text = words => { const { status, output, errors } = asl(words, bytes); return status ? errors : Buffer.from(output).toString(); };
  if (text(['replay']) !== `same ${length}\n`) return 'the run is replayed as: ' + text(['replay']);
  const anew = text(['debug', 'goto', position, 'view']);
  return anew === `at ${position}\n` + view ? null : `at ${position} the state is not that of a fresh replay:\n${view}\n---\n${anew}`;
}

export async function watch(browser) {
  const asl = await openAsl();
  const calm = () => browser.run(CALM);
  const seen = async () => { await calm(); return JSON.parse(await browser.run(SEEN)); };
  const call = async words => { await browser.run(`workbench.bench.${words}.then(() => 1)`); return seen(); };

  // What was typed in a row is one moment, so of it only the text before the row is kept.
  async function textLost(now) {
    const lost = !now.known && !now.typing;
    const before = lost && await browser.run('({ was: window.seenText, is: workbench.bench.text, kept: workbench.bench.past.before.slice(-4).map(it => it.text) })');
    await browser.run(!now.typing ? 'window.seenText = workbench.bench.text, 1' : now.undone ? 'window.seenText = undefined, 1' : '1');
    return lost ? 'a text is gone that undo does not bring back: ' + JSON.stringify(before).slice(0, 900) : null;
  }
  // Undo changes something, and redo brings all back.
  async function thereAndBack(now) {
    if (!now.undo || now.wanted || now.refused) return null;
    await call('undo()');
    const again = await call('redo()');
    return same(now.moment, again.moment) && same(now.done, again.done) ? null
      : 'redo does not bring back what undo has left: ' + differing(now.moment, again.moment) + ` ${now.done} / ${again.done}`;
  }
  async function reloaded() {
    await browser.sleep(500);
    // (a file that was opened may have come meanwhile)
    const now = await seen();
    if (now.wanted || now.refused || now.moment.schedule.length > 20000) return null;
    await browser.run('window.older = true, setTimeout(() => location.reload()), 1');
    await comes(() => browser.run('!window.older && ' + READY).catch(() => false));
    const again = await seen();
    return same(now.moment, again.moment) && same(now.done, again.done) ? null
      : 'a reload loses: ' + differing(now.moment, again.moment) + ` ${now.done} / ${again.done}`;
  }

  // `turn` is 'undo' or 'reload' where that is to be tried too.
  return async function look(turn) {
    if (!await browser.run('Boolean(window.workbench)').catch(() => false)) return null;
    let now = await seen();
    // (a file may have come just then: its text is shown once it is compiled)
    for (let i = 0; i < 3 && now.field !== now.moment.text; i++) {
      await browser.sleep(300);
      const { known, undone } = now;
      now = await seen();
      now.known ||= known;
      now.undone ||= undone;
    }
    if (browser.errors.length) return browser.errors[0];
    const field = now.field === now.moment.text ? null : 'the field has another text than the workbench';
    const wide = now.lecture && now.wide > 0
      ? `a lecture of ${now.width} by ${now.height} is ${now.wide} pixels too wide, by ${await browser.run(WIDE)}` : null;
    return await textLost(now) || field || wide || (now.run && replayed(asl, now.run))
      || (turn === 'undo' ? await thereAndBack(now) : turn === 'reload' ? await reloaded() : null) || browser.errors[0] || null;
  };
}
