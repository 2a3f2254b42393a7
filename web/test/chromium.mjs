// Drives headless Chromium by its protocol, without packages.
import { writeFileSync } from 'node:fs';
import { started } from './child.mjs';
import { comes, connect, MINUTE, sized, sleep } from './socket.mjs';

const OPTIONS = ['--headless=new', '--no-sandbox', '--disable-gpu', '--hide-scrollbars', '--remote-debugging-port=0'];

// The numbers and the texts of keys that are no letters.
const NAMED = { Tab: [9], Enter: [13, '\r'], Escape: [27], ' ': [32, ' '], End: [35], Home: [36], ArrowLeft: [37], ArrowUp: [38],
  ArrowRight: [39], ArrowDown: [40], Delete: [46] };
const keyOf = key => {
  const [windowsVirtualKeyCode, text] = NAMED[key] || [key.toUpperCase().charCodeAt(0), key];
  // (a sign's own number is that of another key: ( is the arrow down)
  return { key, windowsVirtualKeyCode: NAMED[key] || /[a-z0-9]/i.test(key) ? windowsVirtualKeyCode : 0, text };
};

async function pageOf(port) {
  let page;
  await comes(async () => {
    const pages = await (await fetch(`http://127.0.0.1:${port}/json`)).json();
    return page = pages.find(it => it.type === 'page');
  });
  if (!page) throw new Error('Chromium has no page');
  return page.webSocketDebuggerUrl;
}

export const openChromium = (binary = process.env.CHROMIUM || 'chromium') => started({
  name: 'Chromium', binary, pattern: /127\.0\.0\.1:(\d+)\/devtools/,
  words: folder => [...OPTIONS, '--user-data-dir=' + folder, 'about:blank'],
}, driven);

async function driven(port) {
  const errors = [], requests = [];
  const { socket, send } = await connect(await pageOf(port), 'Chromium', told => {
    const { method, params } = told;
    if (method === 'Runtime.exceptionThrown') errors.push(params.exceptionDetails.exception?.description || params.exceptionDetails.text);
    if (method === 'Log.entryAdded' && params.entry.level === 'error') errors.push(params.entry.text);
    if (method === 'Network.requestWillBeSent') requests.push(params.request.url);
  });
  const version = (await send('Browser.getVersion')).result.product.split('/')[1];
  for (const domain of ['Page', 'Runtime', 'Log', 'Network']) await send(domain + '.enable');
  // a page that is so many times slower shows which checks depend on the time
  if (process.env.SLOW) await send('Emulation.setCPUThrottlingRate', { rate: +process.env.SLOW });
  const run = async expression => {
    const { result, error } = await send('Runtime.evaluate', { expression, awaitPromise: true, returnByValue: true });
    if (error) throw new Error(error.message);
    if (result.exceptionDetails) throw new Error(result.exceptionDetails.exception?.description || result.exceptionDetails.text);
    return result.result.value;
  };
  const frames = () => run('new Promise(done => requestAnimationFrame(() => requestAnimationFrame(() => setTimeout(done))))');
  return {
    name: 'Chromium ' + version, errors, requests, send, run, sleep, frames,
    async size(width, height, scale = 1) {
      await send('Emulation.setDeviceMetricsOverride', { width, height, deviceScaleFactor: scale, mobile: false });
      await sized(run, width, height);
    },
    media: (dark, media = '') => send('Emulation.setEmulatedMedia', { media, features: [{ name: 'prefers-color-scheme', value: dark ? 'dark' : 'light' }] }),
    vision: type => send('Emulation.setEmulatedVisionDeficiency', { type }),
    async open(url, ready) {
      await send('Page.navigate', { url: 'about:blank' });
      await send('Page.navigate', { url });
      if (!await comes(() => run(ready).catch(() => false))) throw new Error(`not ready after ${MINUTE} ms: ${url.slice(0, 200)} ${errors.join('; ')}`);
    },
    insertText: text => send('Input.insertText', { text }),
    async click(x, y) {
      for (const type of ['mousePressed', 'mouseReleased'])
        await send('Input.dispatchMouseEvent', { type, x, y, button: 'left', clickCount: 1 });
    },
    // A key goes down and up; `strike` does not wait for the page to be painted.
    async strike(key, shift = false) {
      const named = keyOf(key === '\n' ? 'Enter' : key), modifiers = shift ? 8 : 0;
      await send('Input.dispatchKeyEvent', { type: named.text ? 'keyDown' : 'rawKeyDown', ...named, modifiers });
      await send('Input.dispatchKeyEvent', { type: 'keyUp', ...named, text: undefined, modifiers });
    },
    async key(key, shift = false) { await this.strike(key, shift); await frames(); },
    async typed(text) { for (const letter of text) await this.strike(letter); await frames(); },
    async picture(path, whole = false) {
      const { result } = await send('Page.captureScreenshot', { format: 'png', captureBeyondViewport: whole });
      writeFileSync(path, Buffer.from(result.data, 'base64'));
    },
    async pdf(path) {
      const { result } = await send('Page.printToPDF', { printBackground: true });
      writeFileSync(path, Buffer.from(result.data, 'base64'));
    },
    drop: () => socket.close(),
  };
}
