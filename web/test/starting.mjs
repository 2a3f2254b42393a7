// How the page starts: in a browser that cannot run it, without network, saved whole; and each example.
import { mkdtempSync, readFileSync, readdirSync, writeFileSync } from 'node:fs';
import { tmpdir } from 'node:os';
import { join } from 'node:path';
import { fileURLToPath } from 'node:url';
import { asl, at, browser, calm, check, allTold, finish, hasMemory64, must, open, part, run, settled, textOf } from './kit.mjs';
import { EXAMPLES, PAGE, READY } from './paths.mjs';

await part('a browser that cannot run the module is told so', async () => {
  const page = join(mkdtempSync(join(tmpdir(), 'workbench-')), 'broken.html');
  const whole = readFileSync(fileURLToPath(PAGE), 'utf8');
  writeFileSync(page, whole.replace(/(id="wasm">)[^<]*/, '$1' + 'AGFzbQ=='));
  await browser.open(await hasMemory64() ? 'file://' + page : PAGE, "document.querySelector('#say .is-fault') !== null");
  check(/cannot start here.*It needs .*Chrome or Edge from 133, Firefox from 134/.test(await textOf('#say')), await textOf('#say'));
  await allTold();
  browser.errors.length = 0;
});
if (!await hasMemory64()) { console.log(browser.name, 'has no 64-bit memories: nothing else is tried'); await finish(); }

await part('loads without script errors and without network', async () => {
  browser.requests.length = 0;
  await open();
  const fetched = await run("performance.getEntriesByType('resource').length");
  must(fetched === 0, 'resources fetched: ' + fetched);
  const own = url => url.startsWith(PAGE) || url === 'about:blank' || url.startsWith('blob:'); // the worker's text is the page's
  must(browser.requests.every(own), 'requests ' + browser.requests);
  must(browser.errors.length === 0, 'errors ' + browser.errors);
  const blocked = await run("fetch('https://example.com/').then(() => 'got', () => 'refused')");
  must(blocked === 'refused', 'the policy lets fetch through');
  await allTold();
  const others = browser.errors.filter(text => !/example\.com/.test(text));
  must(others.length === 0, 'errors ' + others);
  browser.errors.length = 0;
});

await part('a page that a browser has saved whole, as it was then, opens as the page itself', async () => {
  await open('#example=counter.asl&k=3&threads=2&steps=0011&at=4&lecture'); await settled();
  const count = () => run("[document.querySelectorAll('#example option').length, document.scripts.length].join()"), before = await count();
  const page = join(mkdtempSync(join(tmpdir(), 'workbench-')), 'saved.html');
  writeFileSync(page, '<!doctype html>\n' + await run('document.documentElement.outerHTML'));
  await browser.open('file://' + page + '#example=bank.asl&k=1&threads=2&steps=0101&at=4', READY); await calm();
  check(await run('workbench.bench.title') === 'bank.asl' && String(await at()) === '4,4' && await count() === before, `${before}, ${await count()}`);
  check(await run("!document.body.classList.contains('lecture')"), 'its look is that of its link');
  await allTold();
  const others = browser.errors.filter(text => !/style/.test(text)); // the styles of single elements, which the policy lets no file have
  must(others.length === 0, 'errors ' + others);
  browser.errors.length = 0;
});

await part('compiles each example, to the bytes and lists of the native toolchain', async () => {
  for (const name of readdirSync(EXAMPLES).filter(n => /\.as[lm]$/.test(n))) {
    await open('#example=' + name + '&k=2&threads=2');
    const image = await run('btoa(String.fromCharCode(...workbench.bench.image))');
    const text = readFileSync(EXAMPLES + name);
    const native = name.endsWith('.asl') ? asl(['compile', '--k', 2], text) : asl(['asm'], text);
    check(Buffer.from(image, 'base64').equals(native), 'image of ' + name);
    check(await run('workbench.bench.refusal === null'), 'refusal of ' + name);
    const lines = await run("document.querySelectorAll('.instruction').length");
    check(lines === await run('workbench.bench.program.code.length'), 'instructions shown of ' + name);
  }
});
