// The drivers of the browsers, with a browser that is played: frames of each size, a socket that is lost, and that no process is left.
//   node web/test/driver.mjs
import { spawn } from 'node:child_process';
import { chmodSync, existsSync, mkdtempSync, readFileSync, rmSync, writeFileSync } from 'node:fs';
import { createServer } from 'node:net';
import { tmpdir } from 'node:os';
import { join } from 'node:path';
import { openFirefox } from './firefox.mjs';
import { answerTo, frameReader, headOf, openSocket } from './frames.mjs';
import { comes } from './socket.mjs';

let passed = 0, failed = 0;
const check = (is, words) => { if (is) passed++; else { failed++; console.log('FAILED', words); } };
const folder = mkdtempSync(join(tmpdir(), 'workbench-driver-'));

// A server that greets, and then gives each message to `heard(text, socket)`, and what it hears to `frames`.
function serve(heard, frames = { count: 0, unmasked: 0, pongs: [] }) {
  const server = createServer(socket => {
    const read = frameReader((kind, isLast, held) => { if (kind === 10) frames.pongs.push(held.toString()); if (kind === 1) heard(held.toString(), socket); });
    socket.on('error', () => {});
    socket.once('data', head => {
      socket.write(`HTTP/1.1 101 Switching\r\nUpgrade: websocket\r\nSec-WebSocket-Accept: ${answerTo(/Key: (\S+)/.exec(head)[1])}\r\n\r\n`);
      socket.on('data', bytes => { look(bytes, frames); read(bytes); });
    });
  });
  return new Promise(done => server.listen(0, '127.0.0.1', () => done({ server, frames, url: `ws://127.0.0.1:${server.address().port}` })));
}
// (a message of one byte, which comes alone, has a frame of seven)
const look = (bytes, frames) => { if (bytes.length !== 7) return; frames.count++; if (!(bytes[1] & 128) || !bytes.readUInt32BE(2)) frames.unmasked++; };
const frame = (kind, held, isLast = true) => { const bytes = Buffer.from(held), head = headOf(kind, bytes.length, false); if (!isLast) head[0] &= 0x7f; return Buffer.concat([head, bytes]); };
const opened = async url => { const told = []; let why = ''; const socket = await openSocket(url, text => told.push(text), words => { why = words; }); return { ...socket, told, why: () => why }; };

{ // 20,000 messages of a process, each answered: none is without a mask (that of Node has none from its 4,098th on)
  const { server, frames, url } = await serve((text, socket) => socket.write(frame(1, text))), one = await opened(url);
  for (let i = 0; i < 20_000; i++) { one.send('x'); for (let waits = 0; one.told.length <= i && waits < 1000; waits++) await new Promise(done => setImmediate(done)); }
  check(frames.count === 20_000 && frames.unmasked === 0 && one.told.length === 20_000, `20,000 frames: ${JSON.stringify(frames)}, ${one.told.length}`);
  one.close(); server.close();
}
{ // messages of each size, there and back; letters that are no ASCII
  const { server, url } = await serve((text, socket) => socket.write(frame(1, text))), one = await opened(url);
  const sizes = [0, 1, 125, 126, 127, 65535, 65536, 5_000_000];
  for (const size of sizes) one.send('y'.repeat(size));
  one.send('ż→𝄞');
  await comes(() => one.told.length === sizes.length + 1, 20_000);
  check(String(one.told.map(text => text.length)) === String([...sizes, 4]) && one.told.at(-1) === 'ż→𝄞', 'sizes: ' + one.told.map(text => text.length));
  one.close(); server.close();
}
{ // fragments with a ping between them, byte by byte; then an end without a word, and one with a reason
  const { server, frames, url } = await serve(async (text, socket) => {
    if (text === 'drop') return socket.destroy();
    if (text === 'close') return socket.write(frame(8, Buffer.concat([Buffer.from([0x03, 0xf1]), Buffer.from('too long')])));
    const bytes = Buffer.concat([frame(1, 'one ', false), frame(9, 'there?'), frame(0, 'two ', false), frame(0, 'three')]);
    for (const byte of bytes) { socket.write(Buffer.from([byte])); await new Promise(done => setImmediate(done)); }
  });
  const one = await opened(url), other = await opened(url);
  one.send('fragments');
  await comes(() => one.told.length && frames.pongs.length, 5000);
  check(String(one.told) === 'one two three' && String(frames.pongs) === 'there?', `${one.told} / ${frames.pongs}`);
  one.send('close'); other.send('drop');
  await comes(() => one.why() && other.why(), 5000);
  check(one.why() === 'it closes by 1009 too long' && other.why() === 'it ends the connection', `${one.why()} / ${other.why()}`);
  server.close();
}

{ // what comes in one piece with the greeting is heard, and one that greets by another key is not taken
  const server = createServer(socket => socket.on('error', () => {}).once('data', head => {
    const accept = answerTo(/^GET \/other/.test(head) ? 'another' : /Key: (\S+)/.exec(head)[1]);
    socket.write(Buffer.concat([Buffer.from(`HTTP/1.1 101 Switching\r\nSec-WebSocket-Accept: ${accept}\r\n\r\n`), frame(1, 'at once')]));
  }));
  await new Promise(done => server.listen(0, '127.0.0.1', done));
  const url = `ws://127.0.0.1:${server.address().port}`, one = await opened(url);
  await comes(() => one.told.length, 5000);
  check(String(one.told) === 'at once', 'behind the greeting: ' + one.told);
  const other = await opened(url + '/other').catch(error => error);
  check(/^it greets by HTTP/.test(other.message), 'a greeting to another key: ' + other.message);
  one.close(); server.close();
}

// A browser that is played: a program that says where it listens, and starts another one.
const played = url => {
  const path = join(folder, 'browser');
  writeFileSync(path, `#!/bin/sh\nsleep 987 & echo $! > "${folder}/second"; echo $$ > "${folder}/first"\necho "WebDriver BiDi listening on ${url}" >&2\nwait\n`);
  chmodSync(path, 0o755);
  return path;
};
const isAlive = name => { try { return !/^\S+ \(.*\) Z/.test(readFileSync(`/proc/${readFileSync(join(folder, name), 'utf8').trim()}/stat`, 'utf8')); } catch { return false; } };
const noneLeft = () => comes(() => !isAlive('first') && !isAlive('second'), 5000);
const ANSWERS = { 'session.new': { capabilities: { browserVersion: '1' } }, 'session.subscribe': {}, 'browsingContext.create': { context: 'c' },
  'script.evaluate': { type: 'success', result: { type: 'number', value: 7 } } };
const plays = last => serve((text, socket) => { // ends the connection at the method `last`
  const { id, method } = JSON.parse(text);
  if (method === last) return socket.destroy();
  socket.write(frame(1, JSON.stringify({ id: 1000 + id, result: {} }))); // (an answer that nobody waits for any more)
  socket.write(frame(1, JSON.stringify({ id, result: ANSWERS[method] })));
});

{ // a browser whose socket is lost fails by that, and is ended all the same
  const { server, url } = await plays('browsingContext.captureScreenshot'), browser = await openFirefox(played(url));
  check(await browser.run('7') === 7 && isAlive('first') && isAlive('second') && existsSync(browser.folder), 'it is there');
  const errors = [await browser.picture('/dev/null').catch(error => error), await browser.run('7').catch(error => error)];
  check(errors.every(error => error.lost && /Firefox is gone after 5 messages: it ends the connection/.test(error.message)), errors.join(' / '));
  await browser.close();
  check(await noneLeft() && !existsSync(browser.folder), 'it is ended with what it has started, and its folder is gone');
  server.close();
}
{ // one that cannot be driven is ended; one that says nothing, or is not there, fails by its name
  const { server, url } = await plays('session.new'), error = await openFirefox(played(url)).catch(it => it);
  check(error.lost && await noneLeft(), 'ended where it does not answer: ' + error);
  check(/^Error: Firefox ended: $/.test(String(await openFirefox('true').catch(it => it))), 'a program that ends');
  check(/^Error: Firefox Error: spawn .* ENOENT: $/.test(String(await openFirefox(join(folder, 'none')).catch(it => it))), 'a program that is not there');
  server.close();
}
{ // tests that end, by a signal or an error, leave none
  const { server, url } = await plays(''), open = `import(${JSON.stringify(new URL('firefox.mjs', import.meta.url).href)}).then(it => it.openFirefox(${JSON.stringify(played(url))}))`;
  for (const [more, signal] of [['', 'SIGTERM'], ['', 'SIGINT'], ['.then(() => { throw new Error("meant"); })', '']]) {
    rmSync(join(folder, 'second'), { force: true });
    const child = spawn(process.execPath, ['-e', open + more], { stdio: 'ignore' }), over = new Promise(done => child.once('exit', done));
    await comes(() => (existsSync(join(folder, 'second')) && isAlive('second')) || child.exitCode !== null, 10_000);
    if (signal) { await new Promise(done => setTimeout(done, 300)); child.kill(signal); }
    check(await over !== 0 && await noneLeft(), `none is left after ${signal || 'an error'}`);
  }
  server.close();
}
rmSync(folder, { recursive: true });
console.log(`driver: ${passed} checks passed, ${failed} failed`);
process.exit(failed ? 1 : 0);
