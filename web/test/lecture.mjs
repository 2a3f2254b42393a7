// A lecture fits a projector; chosen panels fit a page of slides.
import { mkdtempSync, readFileSync, writeFileSync } from 'node:fs';
import { tmpdir } from 'node:os';
import { join } from 'node:path';
import { fileURLToPath } from 'node:url';
import { browser, calm, check, compared, key, open, part, run, settled, textOf, until } from './kit.mjs';
import { PAGE, READY } from './paths.mjs';

const SIZES = [[1280, 720], [1366, 768], [1440, 900], [1920, 1080]];
const BLOCKED = { 'counter.asl': 'threads=2&steps=0011&at=4', 'walk.asl': 'threads=2&steps=000000000111&at=12' };

// Of the selectors, those that are not wholly on the screen, each within the box that scrolls it.
const OFF = `selectors => { const within = (a, b) => a.left >= b.left - 1 && a.right <= b.right + 1 && a.top >= b.top - 1 && a.bottom <= b.bottom + 1;
  const screen = { left: 0, top: 0, right: innerWidth, bottom: innerHeight }, off = [];
  for (const selector of selectors) { const all = [...document.querySelectorAll(selector)];
    if (!all.length) off.push(selector + ' is not there');
    for (const e of all) { const r = e.getBoundingClientRect(), box = e.closest('.scroll') && e.closest('.scroll') !== e ? e.closest('.scroll').getBoundingClientRect() : screen;
      if (!r.width || !r.height || !within(r, screen) || !within(r, box)) off.push(selector + ' ' + [r.left, r.top, r.right, r.bottom].map(Math.round)); } }
  return off; }`;
const off = selectors => run(`(${OFF})(${JSON.stringify(selectors)})`);
// Checks that all of them come to be on the screen: what is found behind all else takes room, and boxes scroll after it.
const inSight = (selectors, words) => until(async () => !(await off(selectors)).length, async () => `${words}: ${await off(selectors)}`);
const wide = () => run('[document.documentElement.scrollWidth, innerWidth]');
// The lines on which the buttons of the bar stand, by their middles.
const barLines = () => run(`new Set([...document.querySelectorAll('.bars button,.bars select')].filter(e => e.checkVisibility())
  .map(e => e.getBoundingClientRect()).map(r => Math.round((r.top + r.bottom) / 20))).size`);

const SCREEN = ['#say p', '#s-time', '#lanes .head', '#s-code', '#s-locks', '#locks tr', '#gutter .chip'];
const HAND = ['#undo', '#clear', '#open', '#k', '#robin', '#until', '#first', '#back', '#forward', '#last', '#lists', '#lecture', '#menu'];

// Letters without a size are 2.9 % of the height, 21 pixels at least; with two steps of larger ones all is on the screen where these have 25.
for (const [width, height] of SIZES) await part(`a lecture at ${width} by ${height}, with letters by its height, and of 21 to 25 pixels`, async () => {
  await browser.size(width, height);
  const own = Math.max(21, Math.min(32, 0.029 * height));
  for (const [name, words] of Object.entries(BLOCKED)) {
    for (const size of [own, 21, 23, 25]) {
      if (size === own) await open(`#example=${name}&k=3&${words}&lecture`);
      else if (size === 21) await open(`#example=${name}&k=3&${words}&lecture&size=21`);
      else await key('A');
      await settled();
      const where = `${name} at ${await run('workbench.textSize()')} px: `;
      check(Math.abs(await run('workbench.textSize()') - size) < 0.1, where + 'the size of letters');
      const [page, seen] = await wide();
      check(page <= seen, `${where}${page} wide, of ${seen}`);
      await inSight([...SCREEN, ...HAND], where + 'not on the screen');
      check(await run("document.querySelectorAll('#gutter .chip').length") === 2, where + 'the lines of both threads are marked');
      check(await barLines() === 1, where + 'lines of the bar: ' + await barLines());
    }
    await run('scrollTo(0, 400)'); await browser.frames();
    check(await run("document.querySelector('header').getBoundingClientRect().top === 0"), name + ': the bar is fixed');
    await run('scrollTo(0, 0)');
  }
  await key('y'); await settled();
  await compared();
  await inSight(['#s-sections', '#comparison button.k', '#say p', '#s-code'], 'the lists over k are at hand');
  await key('y'); await key('M');
  await inSight(['#example', '#new', '#threads-wanted', '#share', '#lessons', '#theme', '#help', '#redo', '#random', '#play', '#slide'], 'all else is at hand');
  check(await run("document.getElementById('menu').ariaExpanded") === 'true', 'and the button says so');
  await key('M');
});

await part('the lists in a lecture: that of the section where the thread is blocked is in sight, at each k', async () => {
  await browser.size(1280, 720);
  const [, link] = /workbench\.html(#example=bank\.asl[^)]*)/.exec(readFileSync(new URL('../../docs/TEACHING.md', import.meta.url), 'utf8'));
  await open(link);
  for (const name of ['y', 'k']) {
    await key(name); await compared(); await settled();
    await inSight(['.matrix.here thead', '.matrix.here tr.mine'], `after ${name}`);
    check(await run("document.querySelector('.matrix.here')?.dataset.list") === '1', `after ${name}: the section is that of list 1`);
  }
  check(/Of the same 111 steps 0 are blocked at k\s1, and 1 at k\s0/.test(await textOf('#note')), await textOf('#note'));
  const beyond = `(b => [...document.querySelectorAll('.matrix.here .link')].filter(e => e.getBoundingClientRect().right > b.right + 3).length)(document.querySelector('.matrix.here').getBoundingClientRect())`;
  for (const [width, height] of SIZES) {
    await browser.size(width, height); await settled();
    check(await run(beyond) === 0, `${width} by ${height}: a button of the lists stands beyond its frame`);
    check(await run("(e => e.scrollWidth <= e.clientWidth)(document.getElementById('s-sections'))"), `${width} by ${height}: the lists are wider than their panel`);
  }
  await browser.size(1280, 720);
  await open('#lesson=6&lecture');
  await key('v'); await browser.typed('expr r1 re'); await settled();
  await inSight(['#own-verdict', '#own-verdict b'], 'what is wrong with a list is in sight');
  check(/refused: List of section 1/.test(await textOf('#own-verdict')), await textOf('#own-verdict'));
  await browser.size(1920, 1080);
  await open(link + '&size=21'); await compared(); await settled();
  await inSight(['.matrix.here thead', '.matrix.here tr.mine', '#locks tr'], 'at 1920 by 1080 with small letters, below the lock tree, without a key');
  await open(link); await settled();
  await inSight(['#locks tr', '#s-locks', '#s-code'], 'with its own letters the lock tree is whole');
  await key('y'); await compared(); await settled();
  await inSight(['.matrix.here thead', '.matrix.here tr.mine'], 'and the lists come by a key');
});

// As on a machine whose processors others take: behind the first few frames none comes for five seconds, but lists and comparison do.
await part('where frames are rare, the section is marked and in sight, too, once all has come', async () => {
  const page = join(mkdtempSync(join(tmpdir(), 'workbench-')), 'rare.html'), whole = readFileSync(fileURLToPath(PAGE), 'utf8');
  const rare = n => `<script>{ const own = requestAnimationFrame; let n = ${n}, late = 0;
    window.requestAnimationFrame = work => { if (n-- > 0) return own(work);
      late ||= performance.now() + 5000; return setTimeout(() => own(work), late - performance.now()); }; }</script>`;
  const [, link] = /workbench\.html(#example=bank\.asl[^)]*)/.exec(readFileSync(new URL('../../docs/TEACHING.md', import.meta.url), 'utf8'));
  await browser.size(1920, 1080);
  for (const [look, frames] of [['&size=21', 0], ['&size=21', 3], ['&size=21', 4], ['', 1]]) {
    writeFileSync(page, whole.replace(/<meta http-equiv="Content-Security-Policy"[^>]*>/, rare(frames)));
    await browser.open('file://' + page + link + look, READY); await calm(); await compared(); await settled();
    if (!look) { await key('y'); await settled(); }
    await inSight(['.matrix.here thead', '.matrix.here tr.mine'], `the list${look}, ${frames} frames at first`);
  }
  await browser.size(1400, 1000);
});

await part('letters follow the height of the window until another size is asked for, which the address keeps', async () => {
  const size = () => run('Math.round(workbench.textSize())');
  await browser.size(1920, 1080);
  await open('#example=counter.asl&k=3&threads=2&steps=0011&at=4&lecture');
  check(await size() === 31, '2.9 % of 1080: ' + await size());
  await browser.size(1280, 720); await settled();
  check(await size() === 21 && !/size=/.test(await run('location.hash')), 'of a lower window: ' + await size());
  await key('A'); await settled();
  check(await size() === 23, 'one step larger: ' + await size());
  await until('/lecture&size=23/.test(location.hash)', () => run('location.hash'));
  await key('L'); await settled();
  check(await size() === 15, 'no lecture: ' + await size());
  await browser.size(1400, 1000);
});

await part('with letters of 25 pixels: the threads stay in sight above the lock tree, and a message covers no list', async () => {
  const [, link] = /workbench\.html(#example=bank\.asl[^)]*)/.exec(readFileSync(new URL('../../docs/TEACHING.md', import.meta.url), 'utf8'));
  await browser.size(1280, 720);
  await open(link + '&size=25'); await compared(); await settled();
  check(await run("(e => e.scrollHeight > e.clientHeight)(document.querySelector('#s-locks .scroll'))"), 'the tree has no room');
  await inSight(['#locks thead .chip', '#locks .wish.no'], 'not in sight');
  const over = await run(`(() => { const head = document.querySelector('#locks thead').getBoundingClientRect(), clash = document.querySelector('#locks .wish.no').getBoundingClientRect(); return clash.top < head.bottom - 1; })()`);
  check(!over, 'the clash is below the head');
  await key('y'); await key('k'); await settled();
  const covered = await run(`(() => { const a = document.getElementById('note').getBoundingClientRect(), b = document.getElementById('s-sections').getBoundingClientRect();
    return document.getElementById('note').hidden ? 'no message' : a.right > b.left && a.bottom > b.top ? 'covered' : ''; })()`);
  check(covered === '', 'the message and the lists: ' + covered);
  await browser.size(1400, 1000);
});

// Of elements, the words of those that are not wholly within a box, or have more in them than they show.
const cut = (selector, box) => run(`(box => [...document.querySelectorAll('${selector}')].filter(e => { const r = e.getBoundingClientRect(), b = box.getBoundingClientRect();
  return r.right > b.right + 1 || r.left < b.left - 1 || e.scrollWidth > e.clientWidth + 1; }).map(e => e.textContent).join(' / '))(document.querySelector('${box}'))`);
const load = (text, threads, schedule, more = '') => run(`workbench.bench.load({ text: ${JSON.stringify(text)}, kind: 'asl', title: 'own.asl', k: 3, threads: ${threads}, schedule: ${JSON.stringify(schedule)}, position: 1e6, lesson: null${more} }).then(() => 1)`);

await part('in a lecture no number is cut at the edge of the timeline, and no list of locks beside the program', async () => {
  const [, link] = /workbench\.html(#example=bank\.asl[^)]*)/.exec(readFileSync(new URL('../../docs/TEACHING.md', import.meta.url), 'utf8'));
  for (const [width, height] of SIZES) {
    await browser.size(width, height);
    await open(link); await settled();
    for (const k of [0, 1]) {
      const lists = await run("[...document.querySelectorAll('#instructions .takes')].map(e => e.textContent.trim().replace(/ +/g, ' ')).join(' / ')");
      check((k ? /writes \*\*from, \*\*to; reads \*from, \*to/ : /writes class 1; reads \*from, \*to/).test(lists), `k ${k}: ${lists}`);
      check(await cut('#instructions .takes', '#editor') === '', `${width} by ${height}, k ${k}: ${await cut('#instructions .takes', '#editor')} is cut`);
      await inSight(['#instructions .row.last .takes'], `${width} by ${height}, k ${k}: the list of the line that is shown`);
      await key('k'); await settled();
    }
    for (const n of [2, 9, 17, 30]) {
      await load(`fn main(t) {\n${'  x = t;\n'.repeat(n)}  y = 1000;\n  z = x - y;\n  out z;\n  return t;\n}\n`, 1, Array(n + 3).fill(0)); await settled();
      check(await textOf('.printed') === '-1000', 'what is printed: ' + await textOf('.printed'));
      check(await cut('.printed', 'svg.lanes') === '', `${width} by ${height}, the last of ${n + 3} events: its number is cut`);
    }
  }
  await browser.size(1400, 1000);
});

await part('a message in a lecture: not over the lines of the threads, and above a dialog', async () => {
  await browser.size(1280, 720);
  const covered = () => run(`(note => note.hidden || [...document.querySelectorAll('#gutter .chip,#gutter .last')].some(e => { const a = e.getBoundingClientRect(), b = note.getBoundingClientRect(); return a.bottom > b.top && a.top < b.bottom; }))(document.getElementById('note'))`);
  await open('#lecture');
  await load(`fn main(t) {\n${'  x = t;\n'.repeat(10)}  return t;\n}\n`, 2, [1, 1, 1, 1, ...Array(10).fill(0)]); await settled();
  await key('o');
  await until(async () => !await covered(), 'the message covers the line of the thread');
  check(/^There is none after this/.test(await textOf('#note')) && await run("document.getElementById('note').getBoundingClientRect().right <= document.getElementById('s-code').getBoundingClientRect().right"), 'it stands over the program: ' + await textOf('#note'));
  await key('s'); await settled();
  await run("(e => { e.scrollIntoView({ block: 'nearest' }); e.click(); })(document.querySelector('#dialog .share button'))");
  await until("/cop/i.test(document.getElementById('note').textContent)", 'the button answers');
  check(await run("(e => { const r = e.getBoundingClientRect(); return e.contains(document.elementFromPoint((r.left + r.right) / 2, (r.top + r.bottom) / 2)); })(document.getElementById('note'))"), 'the answer is above the dialog');
  await key('Escape'); await key('G'); await settled();
  check(await textOf('#note') === '1 step further, thread 0 has ended.', await textOf('#note'));
  check(/returns 0 and ends\./.test(await textOf('#say')), await textOf('#say'));
  await browser.size(1400, 1000);
});

await part('a lesson in a lecture stands at its title or at its step, none of them cut', async () => {
  await browser.size(1280, 720);
  const steps = words => words.map(word => `step ${word}\nhint by key 0\nuntil all threads have ended`).join('\n');
  const text = words => `lesson The last seat\nabout Two clerks sell the last seat of a train.\nprogram seat.asl\n  fn main(t) { return t; }\nend program\n${steps(words)}\nanswer Done.\n`;
  const long = 'Sell the last seat twice: let both clerks print 1. '.repeat(3);
  for (const words of [['Sell the last seat twice: let both clerks print 1.', 'Now the look and the sale are one section. Let one clerk wait for the other.', 'How many seats can be sold now?'], [long], [long + long.slice(0, 99)]]) {
    await open();
    await run(`workbench.loadFile('a.lesson', new TextEncoder().encode(${JSON.stringify(text(words))}))`); await settled();
    await key('L'); await settled();
    const wrong = await run(`(box => { const b = box.getBoundingClientRect(), h = box.querySelector('h2').getBoundingClientRect(), s = box.querySelector('li.present').getBoundingClientRect();
      return [h.top < b.top - 1 && h.bottom > b.top + 2 ? 'the title is cut' : '', s.top < b.top - 1 || s.bottom > b.bottom + 1 && s.top > b.top + 12 ? 'the step is cut' : ''].filter(Boolean).join(); })(document.getElementById('s-lesson'))`);
    check(wrong === '', `${words[0].length} letters: ${wrong}`);
  }
  await browser.size(1400, 1000);
});

await part('the program is scrolled to a whole line, where that leaves the threads in sight', async () => {
  await browser.size(1280, 720);
  for (const line of [30, 37, 44, 52]) {
    await load(`fn main(t) {\n${'  x = t;\n'.repeat(99)}  return t;\n}\n`, 2, Array(line).fill(0), ', k: 3');
    await settled(); await key('c'); await settled(); await key('u'); await settled();
    const [top, row] = await run("(e => [e.scrollTop - parseFloat(getComputedStyle(document.getElementById('sheet')).paddingTop), document.querySelector('#numbers .row').offsetHeight])(document.getElementById('editor'))");
    check(top > 0 && Math.abs(top / row - Math.round(top / row)) < 0.06, `after ${line} steps the first line is cut: ${top} of ${row}`);
  }
  await browser.size(1400, 1000);
});

await part('the lock tree names an object by the global that points to it', async () => {
  const [, link] = /workbench\.html(#example=bank\.asl[^)]*)/.exec(readFileSync(new URL('../../docs/TEACHING.md', import.meta.url), 'utf8'));
  await open(link); await key('k'); await settled();
  const leaves = await run("[...document.querySelectorAll('#locks .leaf')].map(e => e.textContent.replace('└ ', '')).join(', ')");
  for (const [name, o] of [['ann', 4], ['bob', 5], ['cid', 6], ['dan', 7]]) check(leaves.includes(`*${name} obj ${o}[0] leaf ${o}.0`), `${name}: ${leaves}`);
});

await part('a lesson in a lecture: its step, the lock tree and the lists on one screen', async () => {
  await browser.size(1280, 720);
  await open('#lesson=3&lecture');
  for (const name of ['0', '1']) await key(name);
  await inSight(['#s-lesson', '#lesson-title', '#s-locks', '#locks tr', '#s-code', '#s-time'], 'not on the screen');
  await key('y'); await settled();
  await inSight(['#s-lesson', '#s-sections'], 'not on the screen');
  await browser.size(1400, 1000);
});

await part('chosen panels in an iframe of 800 by 450: code, timeline and locks', async () => {
  await browser.size(800, 450);
  for (const [name, words] of Object.entries(BLOCKED)) {
    await open(`#example=${name}&k=3&${words}&view=code,time,locks&size=13&theme=dark&keys=off`); await settled();
    await inSight(['#say p', '#s-time', '#lanes .head', '#s-code', '#s-locks', '#locks tr', '#forward', '#gutter .chip:not(:empty)'], name + ': not on the screen');
    const [tall, wide] = await run('[document.documentElement.scrollHeight - innerHeight, document.documentElement.scrollWidth - innerWidth]');
    check(tall <= 0 && wide <= 0, `${name}: it scrolls by ${tall} and ${wide}`);
    const others = await run("['s-heap', 's-threads', 's-sections', 's-events'].filter(id => document.getElementById(id).checkVisibility())");
    check(!others.length, 'others are shown: ' + others);
  }
  check(await run("document.documentElement.dataset.dark") === '1' && await run('workbench.textSize()') === 13, 'theme and size');
  await key('Home');
  check(await run('workbench.bench.position') === 12, 'the page round it has the keys');
  // the page writes the address anew a moment after a move, the words of the look in its own order
  await until('/view=code,time,locks&theme=dark&size=13&keys=off/.test(location.hash)', async () => 'the look stays in the address: ' + await run('location.hash'));
  await run("document.getElementById('whole').click()"); await calm();
  check(await run("document.getElementById('s-heap').checkVisibility() && document.getElementById('example').checkVisibility()"), 'the whole workbench');
  await open('#example=hash.asl&view=heap,threads,nonsense'); await settled();
  await inSight(['#s-heap', '#s-threads'], 'other panels');
  check(!await run("document.getElementById('s-code').checkVisibility()"), 'and no code');
  await browser.size(1400, 1000);
});

await part('a lecture of chosen panels is as wide as its window', async () => {
  for (const [width, height] of [[600, 900], [844, 1000], [1024, 768], [1280, 720]]) {
    await browser.size(width, height);
    for (const view of ['time', 'code,time,locks']) {
      await open(`#example=hit.asl&threads=2&steps=0101&view=${view}&lecture`); await settled();
      for (const larger of ['', 'one step larger', 'two steps larger']) {
        if (larger) { await key('A'); await settled(); }
        const [page, seen] = await wide();
        check(page <= seen, `${view} at ${width} by ${height} ${larger}: ${page} wide, of ${seen}`);
      }
    }
  }
  await browser.size(1400, 1000);
});

await part('the bar stays in the window: a lecture that is low, with a long name, and chosen panels on a phone', async () => {
  const tooWide = () => run('document.documentElement.scrollWidth - innerWidth');
  const name = 'a-name-that-is-much-longer-than-its-room-in-the-bar.asl', text = 'fn main(t) { return t; }';
  for (const [width, height] of [[1400, 390], [1000, 450], [1280, 720]]) {
    await browser.size(width, height);
    await open('#example=walk.asl&k=3&threads=2&steps=0101&at=4&lecture');
    await run(`workbench.bench.load({ text: '${text}', kind: 'asl', title: '${name}' }).then(() => 1)`); await settled();
    check(await tooWide() <= 0, `${width} by ${height}: ${await tooWide()} pixels too wide`);
  }
  for (const [width, height] of [[420, 768], [800, 450]]) for (const look of ['lecture', 'lecture&size=25', 'size=13']) {
    await browser.size(width, height);
    await open('#example=walk.asl&k=3&threads=2&steps=0101&at=4&view=time,code,locks&' + look); await settled();
    check(await tooWide() <= 0, `${width} by ${height}, ${look}: ${await tooWide()} pixels too wide`);
  }
  await browser.size(1400, 1000);
});

await part('the last minute of the lecture by the keys of TEACHING: four hits', async () => {
  const [, link, keys] = /workbench\.html(#example=counter\.asl[^)]*&predict&lecture)\) \| ([^|]*)\|/.exec(readFileSync(new URL('../../docs/TEACHING.md', import.meta.url), 'utf8'));
  await browser.size(1280, 720);
  await open(link);
  for (const [, words] of keys.matchAll(/`([^`]*)`/g)) for (const name of words.split(' ')) { await key(name); await settled(); }
  check(/^4 of 4 hit$/.test(await textOf('#predict-count')) && /blocked by T0 at/.test(await textOf('#predict-asked')), `${keys}: ${await textOf('#s-predict')}`);
  await browser.size(1400, 1000);
});

// (Firefox is not asked for what it would print.)
await part('what is printed of a lecture, or with a size: lines stand apart, and nothing is wider than the page', async () => {
  if (!browser.name.startsWith('Chromium')) return;
  for (const look of ['lecture', 'size=18', 'size=32', 'lecture&theme=dark']) {
    await browser.size(1280, 720);
    await open('#example=bank.asl&k=0&threads=2&steps=000111&at=6&' + look); await settled();
    await browser.size(760, 1100); await browser.media(false, 'print'); await run("dispatchEvent(new Event('beforeprint'))"); await settled();
    const [letters, row] = await run("(e => [e.fontSize, e.height].map(parseFloat))(getComputedStyle(document.querySelector('#paint .row')))");
    check(letters > 8 && letters <= 10 && row >= 1.3 * letters, `${look}: letters of ${letters} in rows of ${row}`);
    const [editor, lines] = await run("[document.getElementById('editor').offsetHeight, workbench.bench.text.split('\\n').length]");
    check(editor < (lines + 4) * row, `${look}: ${lines} lines in ${editor}`);
    const wide = await run(`[...document.querySelectorAll('main section, main section *')].filter(e => e.checkVisibility() && !e.matches('svg *') && e.getBoundingClientRect().right > innerWidth + 1)
      .map(e => e.id || e.className.baseVal || e.className || e.tagName).slice(0, 5)`);
    check(!wide.length && await run('document.documentElement.scrollWidth <= innerWidth'), `${look}: wider than the page: ${wide}`);
    await browser.media(false); await run("dispatchEvent(new Event('afterprint'))");
  }
  await browser.size(1400, 1000);
});

await part('a lesson in a lecture: the present step is at the top of its panel, and those that are done have a line each', async () => {
  // What stands where: the panel's room, and of a selector the top in it, and whether it is wholly in it.
  const placeOf = selector => run(`(() => { const box = document.getElementById('s-lesson').getBoundingClientRect(), e = document.querySelector(${JSON.stringify(selector)});
    const r = e.getBoundingClientRect(); return [Math.round(r.top - box.top), r.top >= box.top - 1 && r.bottom <= box.bottom + 1, Math.round(r.height)]; })()`);
  for (const [width, height, size] of [[1280, 720, 21], [1280, 720, 25], [1920, 1080, 31]]) for (const [number, keys] of [[2, '0*5 1*11 0*6'], [7, 'r']]) {
    await browser.size(width, height);
    const where = `lesson ${number} at ${width} by ${height}, ${size} px: `;
    await open(`#lesson=${number}&lecture&size=${size}`); await settled();
    for (const word of keys.split(' ')) { const [name, times = 1] = word.split('*'); for (let i = 0; i < times; i++) await key(name); }
    await settled();
    const present = '#s-lesson li.present', [top, whole] = await placeOf(present), told = await run("document.querySelector('#s-lesson li.newest .then')?.checkVisibility() ?? null");
    check(top >= 0 && (number === 2 ? whole : top < 12), `${where}the present step is at ${top}, whole ${whole}`); // (choices may go on below)
    const high = await run("[...document.querySelectorAll('#s-lesson li.done:not(.newest)')].map(e => e.getBoundingClientRect().height)"), letters = await run('workbench.textSize()');
    check(high.length === (number === 2 ? 1 : 0) && high.every(each => each < 1.9 * letters), `${where}those that are done have a line each: ${high}`);
    const [, toldWhole] = await placeOf('#s-lesson li.newest .then');
    check(told === true, `${where}what is told of the last of them is shown, in sight ${toldWhole}`);
  }
  await browser.size(1280, 720);
  await open('#lesson=5&lecture&size=25'); await settled();
  for (const name of ['g', '0', '0', '0', '0', 'G']) await key(name);
  await settled();
  check((await textOf('#lesson-end')).startsWith('Done.') && (await placeOf('#lesson-end'))[1], 'the answer is in sight: ' + await placeOf('#lesson-end'));
  await browser.size(1400, 1000);
});
