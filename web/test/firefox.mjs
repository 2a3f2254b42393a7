// Drives Firefox without a window by WebDriver BiDi over a WebSocket, without a driver and without packages.
// It offers what chromium.mjs offers, as far as BiDi has it.
import { writeFileSync } from 'node:fs';
import { started } from './child.mjs';
import { comes, connect, PATIENT, sized, sleep } from './socket.mjs';

const KEYS = { Tab: '\uE004', Enter: '\uE006', '\n': '\uE006', Escape: '\uE00C', End: '\uE010', Home: '\uE011', ArrowLeft: '\uE012',
  ArrowUp: '\uE013', ArrowRight: '\uE014', ArrowDown: '\uE015', Delete: '\uE017' };

// A value that the page gave, told by BiDi piece by piece.
function plain(value) {
  if (value.type === 'array') return value.value.map(plain);
  if (value.type === 'object') return Object.fromEntries(value.value.map(([key, held]) => [key, plain(held)]));
  return value.type === 'undefined' ? undefined : value.type === 'null' ? null : value.value;
}

export const openFirefox = (binary = process.env.FIREFOX || 'firefox-esr') => started({
  name: 'Firefox', binary, pattern: /WebDriver BiDi listening on (ws:\S+)/, more: folder => ({ HOME: folder }),
  words: folder => ['--headless', '--no-remote', '--profile', folder, '--remote-debugging-port', '0'],
}, driven);

async function driven(address) {
  const errors = [], requests = [];
  const { socket, send } = await connect(address + '/session', 'Firefox', told => {
    if (told.method === 'log.entryAdded' && told.params.level === 'error') errors.push(told.params.text);
    if (told.method === 'network.beforeRequestSent') requests.push(told.params.request.url);
  });
  const { capabilities } = (await send('session.new', { capabilities: {} })).result;
  await send('session.subscribe', { events: ['log.entryAdded', 'network.beforeRequestSent'] });
  // The first window never has the focus, without which no key presses a button; one that is made has it.
  const { context } = (await send('browsingContext.create', { type: 'window' })).result;
  const run = async (expression, patience) => {
    const { result, error, message } = await send('script.evaluate', { expression, target: { context }, awaitPromise: true }, patience);
    if (error) throw new Error(message);
    if (result.type === 'exception') throw new Error(result.exceptionDetails.text);
    return plain(result.result);
  };
  const frames = () => run(`new Promise(done => { requestAnimationFrame(() => requestAnimationFrame(() => setTimeout(done))); setTimeout(done, 2000); })`);
  // Goes to a page, three times at most, each with more patience, until it answers the question whether it is there.
  const goTo = async (url, question) => {
    for (const patience of [20_000, 40_000, 60_000].map(ms => ms * PATIENT)) {
      await send('browsingContext.navigate', { context, url, wait: 'none' }, 5_000 * PATIENT).catch(() => {});
      if (await comes(() => run(question, 15_000 * PATIENT).catch(() => false), patience)) return true;
    }
    return false;
  };
  const press = (type, actions) => send('input.performActions', { context, actions: [{ type, id: type, actions }] });
  return {
    name: 'Firefox ' + capabilities.browserVersion, errors, requests, run, sleep, frames,
    async size(width, height) {
      await send('browsingContext.setViewport', { context, viewport: { width, height } });
      await sized(run, width, height);
    },
    media: async () => {},
    async insertText(text) {
      await press('key', [...text].flatMap(value => [{ type: 'keyDown', value }, { type: 'keyUp', value }]));
    },
    async click(x, y) {
      await press('pointer', [{ type: 'pointerMove', x: Math.round(x), y: Math.round(y) }, { type: 'pointerDown', button: 0 },
        { type: 'pointerUp', button: 0 }]);
    },
    // An answer to a navigation may be lost, so no answer is waited for: the page itself is asked whether it is there.
    async open(url, ready) {
      if (!await goTo('about:blank', "location.href === 'about:blank'") || !await goTo(url, ready))
        throw new Error(`not ready: ${url.slice(0, 200)} ${errors.join('; ')}`);
    },
    async strike(key, shift = false) {
      const value = KEYS[key] || key, hold = type => (shift ? [{ type, value: '\uE008' }] : []);
      await press('key', [...hold('keyDown'), { type: 'keyDown', value }, { type: 'keyUp', value }, ...hold('keyUp')]);
    },
    async key(key, shift = false) { await this.strike(key, shift); await frames(); },
    async typed(text) {
      await press('key', [...text].map(letter => KEYS[letter] || letter).flatMap(value => [{ type: 'keyDown', value }, { type: 'keyUp', value }]));
      await frames();
    },
    async picture(path) {
      const { result } = await send('browsingContext.captureScreenshot', { context });
      writeFileSync(path, Buffer.from(result.data, 'base64'));
    },
    drop: () => socket.close(),
  };
}
