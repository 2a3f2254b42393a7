// The client's end of a WebSocket over TCP, for the protocols of the browsers: texts both ways, whole or in fragments, pings, the end.
//
// Node's own WebSocket will not do. That of Node 20.20.2 (undici 6.24.1) fills a store of 16,386 random bytes and takes four of them for
// the mask of a frame; four do not go into 16,386, so the store is never filled again, and from the 4,098th frame of the process on, on
// whichever socket, each mask is 0. Chromium takes such a frame; Firefox ends the connection without a word, which is told as 1006, and
// the next one at its first frame.
import { connect } from 'node:net';
import { createHash, randomBytes, randomInt } from 'node:crypto';

const MORE = 0, TEXT = 1, CLOSE = 8, PING = 9, PONG = 10, IS_LAST = 0x80, IS_MASKED = 0x80;
const GUID = '258EAFA5-E914-47DA-95CA-C5AB0DC85B11';
export const answerTo = key => createHash('sha1').update(key + GUID).digest('base64');

// The bytes of a frame before what it holds, without a mask.
export function headOf(kind, length, isMasked) {
  const bit = isMasked ? IS_MASKED : 0;
  if (length < 126) return Buffer.from([IS_LAST | kind, bit | length]);
  const head = Buffer.alloc(length < 0x10000 ? 4 : 10);
  head[0] = IS_LAST | kind;
  head[1] = bit | (length < 0x10000 ? 126 : 127);
  if (length < 0x10000) head.writeUInt16BE(length, 2); else head.writeBigUInt64BE(BigInt(length), 2);
  return head;
}
// A frame as a client sends it: what it holds is masked by four random bytes that are not all 0.
function masked(kind, held) {
  const mask = Buffer.alloc(4), bytes = Buffer.from(held);
  mask.writeUInt32BE(randomInt(1, 2 ** 32));
  for (let i = 0; i < bytes.length; i++) bytes[i] ^= mask[i & 3];
  return Buffer.concat([headOf(kind, bytes.length, true), mask, bytes]);
}

// Takes bytes as they come, and tells each frame that is whole by `told(kind, isLast, bytes)`.
export function frameReader(told) {
  let parts = [], length = 0, wanted = 2;
  return bytes => {
    parts.push(bytes);
    length += bytes.length;
    while (length >= wanted) {
      const all = parts.length === 1 ? parts[0] : Buffer.concat(parts);
      parts = [all];
      const short = all[1] & 0x7f, mask = all[1] & IS_MASKED ? 4 : 0, head = (short < 126 ? 2 : short === 126 ? 4 : 10) + mask;
      wanted = head;
      if (length < head) continue;
      wanted += short < 126 ? short : short === 126 ? all.readUInt16BE(2) : Number(all.readBigUInt64BE(2));
      if (length < wanted) continue;
      const held = Buffer.from(all.subarray(head, wanted));
      for (let i = 0; mask && i < held.length; i++) held[i] ^= all[head - 4 + (i & 3)];
      parts = [all.subarray(wanted)];
      length -= wanted;
      wanted = 2;
      told(all[0] & 15, Boolean(all[0] & IS_LAST), held);
    }
  };
}

function greeted(socket, { host, pathname }) {
  const key = randomBytes(16).toString('base64');
  socket.write(`GET ${pathname} HTTP/1.1\r\nHost: ${host}\r\nConnection: Upgrade\r\nUpgrade: websocket\r\nSec-WebSocket-Version: 13\r\n`
    + `Sec-WebSocket-Key: ${key}\r\n\r\n`);
  let said = Buffer.alloc(0);
  return new Promise((done, fail) => {
    const take = bytes => {
      said = Buffer.concat([said, bytes]);
      const end = said.indexOf('\r\n\r\n');
      if (end < 0) return;
      socket.off('data', take);
      const head = said.subarray(0, end).toString();
      if (!head.startsWith('HTTP/1.1 101') || !head.includes(answerTo(key))) fail(new Error('it greets by ' + head.slice(0, 200)));
      else done(said.subarray(end + 4)); // (what came behind it)
    };
    socket.on('data', take);
    socket.once('error', fail);
    socket.once('close', () => fail(new Error('it ends the connection')));
  });
}

// Opens a socket; `heard(text)` hears each message, and `gone(why)` once that the connection has ended.
export async function openSocket(url, heard, gone) {
  const place = new URL(url), socket = connect(Number(place.port), place.hostname);
  let why = 'it ends the connection', message = [];
  const rest = await greeted(socket, place).catch(error => { socket.destroy(); throw error; });
  const read = frameReader((kind, isLast, held) => {
    if (kind === PING) socket.write(masked(PONG, held));
    if (kind === CLOSE) { why = `it closes by ${held.length > 1 ? held.readUInt16BE(0) : 'no code'} ${held.subarray(2)}`; socket.end(masked(CLOSE, held)); }
    if (kind !== MORE && kind !== TEXT) return;
    message.push(held);
    if (!isLast) return;
    const text = Buffer.concat(message).toString();
    message = [];
    heard(text);
  });
  socket.on('data', read);
  socket.on('error', error => { why = String(error); });
  socket.on('close', () => gone(why));
  if (rest.length) read(rest);
  return { send: text => socket.write(masked(TEXT, text)), close: () => socket.destroy() };
}
