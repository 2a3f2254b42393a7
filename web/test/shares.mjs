// Each k, reasons, links, pictures, files, and hostile texts.
import { mkdtempSync, readFileSync, writeFileSync } from 'node:fs';
import { tmpdir } from 'node:os';
import { join } from 'node:path';
import { deflateRawSync } from 'node:zlib';
import { asl, at, browser, calm, check, compared, key, must, open, part, run, settled, textOf, until } from './kit.mjs';
import { EXAMPLES } from './paths.mjs';
import { savedBy, type } from './runs.mjs';

await part('blocked steps at each k are those that the native program has there', async () => {
  await open('#example=bank.asl&k=0&threads=2');
  await run("document.getElementById('seed').value = 5; document.getElementById('most').value = 160");
  for (const name of ['R', 'b', 'B', 'B']) await key(name);
  await compared();
  const schedule = await run('workbench.bench.run.schedule'), event = (await at())[0] - 1;
  const shown = await run("[...document.querySelectorAll('#comparison tbody tr')].map(row => [...row.querySelectorAll('td')].map(td => td.textContent).slice(0, 9))");
  for (let k = 0; k <= 8; k++) {
    const lines = asl(['step', '--threads', 2, ...schedule], asl(['compile', '--k', k], readFileSync(EXAMPLES + 'bank.asl'))).toString().trim().split('\n');
    check(Number(shown[0][k]) === lines.filter(line => line.endsWith(' blocked')).length, `k ${k}: ${shown[0][k]} blocked`);
    check((shown[1][k] === '⊠') === lines[event].endsWith(' blocked'), `k ${k}: event ${event} ${shown[1][k]}`);
  }
  console.log('       blocked at k 0 to 8:', String(shown[0]), await textOf('#say .soft'));
});

await part('reasons are those of the native toolchain, of the section that is asked for', async () => {
  for (const name of ['walk.asl', 'bank.asl']) {
    await open(`#example=${name}&k=2&threads=2`);
    const native = asl(['explain', '--k', 2], readFileSync(EXAMPLES + name)).toString();
    const sections = await run("document.querySelectorAll('#sections .matrix').length");
    check(sections > 0, name + ': sections');
    for (let section = 0; section < sections; section++) {
      await run(`document.querySelectorAll('#sections .matrix')[${section}].querySelector('[data-keep^=why]').click()`);
      await calm();
      const shown = await run("document.querySelector('#dialog-body .why').textContent");
      check(shown.startsWith(`section ${section}, `) && native.includes(shown), `${name}: section ${section}: ${shown.slice(0, 40)}`);
      await run("document.getElementById('dialog').close()");
    }
  }
});

await part('a share link restores everything', async () => {
  await open('#example=bank.asl&k=1&threads=3');
  await type((await run('workbench.bench.text')).replace('hundred = 100', 'hundred = 250'));
  await key('R'); await run('workbench.bench.go(77)');
  await until("location.hash.endsWith('at=77')", () => run('location.hash'));
  const said = 'JSON.stringify([workbench.bench.text, workbench.bench.k, workbench.bench.threads, workbench.bench.run.schedule, workbench.bench.position, workbench.tellView(workbench.bench.state)])';
  const before = await run(said), fragment = await run('location.hash');
  await open(fragment);
  check(await run(said) === before, 'restored');
  console.log('       a link of', fragment.length, 'letters for', (await at())[1], 'steps of a changed source');
  const long = '#asl=' + deflateRawSync(Buffer.alloc(2 ** 24 + 1, ' ')).toString('base64url');
  for (const broken of ['#asl=%%%&k=99&threads=-4&steps=zz', '#example=toString', '#example=__proto__', long]) {
    await open(broken);
    check(await run("workbench.bench.title") === 'counter.asl', 'a broken link opens the first example: ' + broken.slice(0, 40));
  }
  await open('#example=counter.asl&threads=12&steps=0*x.1*-1.2*1.5..3*2.12.7');
  check(String(await run('workbench.bench.run.schedule')) === '2,5,3,3,7', 'what is no step is left out');
});

await part('a picture of the run is an SVG that stands alone, with a row per thread, in light colours', async () => {
  await open('#example=queue.asl&k=3&threads=3');
  for (const name of ['R', 'd', 's']) await key(name);
  await settled();
  const text = await savedBy('Save queue.svg'), [, length] = await at();
  check(await run("document.documentElement.dataset.dark === '1' && !document.querySelector('#print-lanes *')"), 'the page is as it was');
  const [root, rows, events] = await run(`(() => { const { documentElement } = new DOMParser().parseFromString(${JSON.stringify(text)}, 'image/svg+xml');
    const words = (box, name) => [...box.querySelectorAll(name)].map(e => e.textContent);
    return [documentElement.tagName, [...documentElement.children].filter(e => e.tagName === 'svg').map(row => words(row, 'text').filter(text => /^T\\d$/.test(text)).join()),
      words(documentElement, '.lanes title').filter(text => text.startsWith('event ')).length]; })()`);
  check(root === 'svg' && rows.length === Math.ceil(length / 48) && rows.every(row => row === 'T0,T1,T2'), `${root}: ${rows}`);
  check(events === length, `${events} marks of ${length} events`);
  check(!/var\(|style=|<script|href/.test(text), 'nothing in it needs the page');
  const file = join(mkdtempSync(join(tmpdir(), 'workbench-')), 'run.svg');
  writeFileSync(file, text);
  await browser.open('file://' + file, "document.documentElement.tagName === 'svg'");
  const looks = await run("['circle', 'rect', 'text'].map(name => getComputedStyle(document.querySelector(name)).fill).join('; ')");
  check(/^rgb\(0, 114, 178\)|^rgb\(192, 79, 0\)|^rgb\(0, 122, 90\)/.test(looks) && looks.includes('; rgb(246, 247, 249); rgb(77, 86, 99)'), 'colours ' + looks);
});

await part('files: a run file, an image, an assembly text', async () => {
  await open();
  const bytes = [...readFileSync(EXAMPLES + 'counter.run')];
  await run(`workbench.loadFile('counter.run', new Uint8Array(${JSON.stringify(bytes)}))`); await settled();
  check(String(await at()) === '4,4' && await run("workbench.bench.last.reply") === 'blocked', 'run file');
  check(await run("workbench.bench.title") === 'counter.asl', 'with its source');
  const image = [...asl(['compile', '--k', 0], 'global z; fn main(t) { p = &z; atomic { *p = t; } return t; }')];
  await run(`workbench.loadFile('z.img', new Uint8Array(${JSON.stringify(image)}))`); await settled();
  check(await run("workbench.bench.kind + workbench.bench.title") === 'asmz.asm', 'image as assembly');
  const broken = [...bytes.slice(0, -1), 0];
  await run(`workbench.loadFile('broken.run', new Uint8Array(${JSON.stringify(broken)}))`);
  check(await run("/does not belong to this program: at event 3/.test(document.getElementById('trouble').textContent)"), 'a journal that is none');
});

await part('a source with </script> and <img onerror> stays text', async () => {
  await open();
  const evil = 'fn main(t) { </script><img src=x onerror="window.bad=1"> return t; }';
  const before = await run('location.hash');
  await type(evil);
  await until(`location.hash !== ${JSON.stringify(before)} && location.hash.startsWith('#asl=')`, () => run('location.hash'));
  must(await run('window.bad === undefined && document.images.length === 0'), 'stays text');
  const fragment = await run('location.hash');
  await open(fragment); await settled();
  must(await run('window.bad === undefined && document.images.length === 0'), 'from a link too');
  check(await run('workbench.bench.text') === evil, 'and is the same: ' + await run('workbench.bench.text'));
  await open('#asl=' + fragment.slice(5).split('&')[0] + '&title=' + encodeURIComponent('<img src=x onerror="window.bad=1"></title></script>')); await settled();
  must(await run('window.bad === undefined && document.images.length === 0'), 'a title too');
});

await part('right-to-left marks stay text, and turn nothing round', async () => {
  const evil = 'fn main(t) {\n  x = \u202Etxe\u2067; y = \u200F;\n  return t;\n}\n', title = 'safe.\u202Elsa\u2066';
  const marked = () => run("[...document.querySelectorAll('title,header,#complaint,#s-sections,#dialog')].filter(e => /\\p{Cf}/u.test(e.textContent)).map(e => e.textContent).join('; ')");
  await open('#asl=' + deflateRawSync(evil).toString('base64url') + '&title=' + encodeURIComponent(title)); await settled();
  check(await run('workbench.bench.text') === evil && await run("document.getElementById('text').value") === evil, 'the text is as it came');
  check(await textOf('#title') === 'safe.lsa' && await marked() === '', 'marks in ' + await marked());
  const row = await textOf('#complaint pre');
  check(/^ {2}x = \uFFFDtxe\uFFFD; y = \uFFFD;\n {6}\^/.test(row), 'each mark is seen: ' + row);
  await type('global g; fn main(t) { return t; }'); await type('global g; fn main(t) { return t; } \u202E');
  for (const name of ['0', 's']) await key(name);
  await settled();
  check(await run("document.getElementById('dialog').open") && await marked() === '', 'marks in ' + await marked());
  await open(await run('location.hash')); await settled();
  check(await run('workbench.bench.text') === 'global g; fn main(t) { return t; } \u202E', 'from a link too');
});

await part('no sideways scrolling at 420 px', async () => {
  for (const name of ['counter.asl', 'hash.asl', 'bank.asl']) {
    await browser.size(420, 900); await open(`#example=${name}&threads=3`); await key('R'); await settled();
    const [wide, seen] = await run('[document.documentElement.scrollWidth, innerWidth]');
    check(wide <= seen, `${name}: ${wide} of ${seen}`);
  }
  await browser.size(390, 844); await open('#example=queue.asl&k=3&threads=3&steps=0011221100'); await settled();
  const beyond = () => run("[...document.querySelectorAll('.matrix .link')].filter(e => e.getBoundingClientRect().right > document.getElementById('sections').getBoundingClientRect().right).length");
  check(await run("document.querySelectorAll('.matrix .link').length") > 6 && await beyond() === 0, `on a phone ${await beyond()} buttons of the lists are cut`);
  for (const width of [390, 800, 1000, 1200, 1280, 1440, 1920]) {
    await browser.size(width, 900); await settled();
    const out = await run("[...document.querySelectorAll('.matrix .link')].map(e => Math.round(e.getBoundingClientRect().right - e.closest('table').getBoundingClientRect().right)).filter(by => by > 1).join()");
    check(out === '', `${width} wide, buttons stand out of their table: by ${out}`);
  }
  await browser.size(1400, 1000);
});

await part('what a link leaves out, and its limits; the embedding has its own look, and the command line the k of the run', async () => {
  const size = () => run('workbench.textSize()'), dark = () => run("document.documentElement.dataset.dark === '1'"), shared = words => run(`[...document.querySelectorAll('#dialog .share')].find(e => /${words}/.test(e.textContent)).querySelector('pre').textContent`);
  await open('#example=counter.asl&threads=2&steps=0011'); check(String(await at()) === '4,4', 'without a position it is behind the last step: ' + await at());
  await open('#example=counter.asl&threads=1000&k=12&size=8&theme=dark&keys=off'); await settled();
  check(await run('[workbench.bench.threads, workbench.bench.k].join()') === '128,8' && await size() === 8 && await dark(), `limits: ${await run('[workbench.bench.threads, workbench.bench.k].join()')}, letters of ${await size()}`);
  await key('0'); check(String(await at()) === '0,0', 'the keys are off');
  await run("location.hash = '#example=bank.asl&threads=2', 1"); await until("workbench.bench.title === 'bank.asl'"); await settled();
  await key('0'); check(String(await at()) === '1,1' && !await dark(), 'the next link has none of that: ' + await at());
  await open('#example=bank.asl&k=1&threads=2&steps=01&at=2&lecture&size=25&theme=dark'); await settled();
  await key('s'); await settled();
  check(/#example=bank\.asl&k=1&threads=2&steps=01&at=2&theme=dark&view=code,time,locks&size=13"><\/iframe>$/.test(await shared('For a page of slides')), 'the embedding: ' + await shared('For a page of slides'));
  await run("document.getElementById('dialog').close()");
  await type((await run('workbench.bench.text')).replace('hundred = 100;', 'hundred = ;')); await key('k'); await settled(); await key('s'); await settled();
  check(/^asl compile --k 1 < bank\.asl > bank\.img\n/.test(await shared('The same by')), 'the run is still that of k 1: ' + await shared('The same by'));
  await run("document.getElementById('dialog').close()");
  await browser.size(800, 450); await open('#example=bank.asl&view=code,time'); check(await run("document.body.classList.contains('no-instructions')"), 'a small page of panels has no instructions'); await browser.size(1400, 1000);
});

await part('pictures: rows below one another, nothing beyond the edge, what is scrolled away, and heads of arrows', async () => {
  await open('#example=queue.asl&k=3&threads=3'); await key('R'); await key('s');
  const [width, ...rows] = await run(`(svg => [Number(svg.getAttribute('width')), ...[...svg.children].filter(e => e.tagName === 'svg').map(e => ['y', 'height', 'width'].map(name => Number(e.getAttribute(name))))])(new DOMParser().parseFromString(${JSON.stringify(await savedBy('Save queue.svg'))}, 'image/svg+xml').documentElement)`);
  let y = 0;
  for (const [at, height, wide] of rows) { check(at === y && wide <= width, `a row at ${at}, ${wide} wide, not at ${y}, at most ${width}`); y += height; }
  check(rows.length > 1 && rows.some(([, , wide]) => wide === width), 'it is as wide as its widest row: ' + width);
  await run("document.getElementById('dialog').close()");
  await open('#example=walk.asl&k=3&threads=2&steps=000000000111&at=12');
  const shapes = text => run(`(svg => [Number(svg.getAttribute('width')), Number(svg.getAttribute('height')), Math.max(...[...svg.querySelectorAll('text,rect')].map(e => Number(e.getAttribute('x') || 0) + Number(e.getAttribute('width') || e.getAttribute('textLength') || 0))), Math.min(...[...svg.querySelectorAll('text')].map(e => Number(e.getAttribute('y')))), svg.querySelectorAll('marker').length])(new DOMParser().parseFromString(${JSON.stringify(text)}, 'image/svg+xml').documentElement)`);
  for (const [box, name] of [['locks', 'walk-locks.svg'], ['heap', 'walk-heap.svg']]) {
    await key('s'); const plain = await shapes(await savedBy('Save ' + name)); await run("document.getElementById('dialog').close()");
    await run(`(e => { e.style.cssText = 'max-height:60px;overflow:auto'; e.scrollTop = 40; })(document.getElementById('${box}'))`);
    await key('s'); const scrolled = await shapes(await savedBy('Save ' + name)); await run(`document.getElementById('dialog').close(), document.getElementById('${box}').style.cssText = ''`);
    check(plain[2] <= plain[0] && plain[3] > 0, `${name}: ${plain[2]} of ${plain[0]}, from ${plain[3]}`);
    check(Math.abs(scrolled[1] - plain[1]) < 12 && scrolled[3] > 0, `${name}, scrolled away: ${scrolled[1]} and ${plain[1]} high, from ${scrolled[3]}`);
    if (box === 'heap') check(plain[4] === 1, `${name}: ${plain[4]} heads of arrows`);
  }
});
