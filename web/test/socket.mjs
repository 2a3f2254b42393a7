// What the drivers of both browsers share: messages over a WebSocket, each with an answer, and what is waited for.
import { openSocket } from './frames.mjs';

export const sleep = ms => new Promise(done => setTimeout(done, ms));
// How many ms the page may take to come to what is waited for, and how many an answer may take; either fails by its name.
// (PATIENT=5 takes five times as long, on a machine that is given to others.)
export const PATIENT = Number(process.env.PATIENT || 1), MINUTE = 60_000 * PATIENT, PATIENCE = 180_000 * PATIENT;

// `heard` hears what is no answer. Where none comes, what fails has `lost`: then the browser is to be begun anew.
export async function connect(url, name, heard) {
  const waiting = new Map(), lost = words => Object.assign(new Error(`${name} ${words}`), { lost: true });
  let last = 0, gone = '';
  const take = id => { const asked = waiting.get(id); waiting.delete(id); clearTimeout(asked?.late); return asked; };
  const listen = text => {
    const told = JSON.parse(text);
    if (told.id) take(told.id)?.done(told); else heard(told); // (an answer may come too late)
  };
  const over = why => { gone = `is gone after ${last} messages: ${why}`; for (const id of [...waiting.keys()]) take(id).fail(lost(gone)); };
  const socket = await openSocket(url, listen, over).catch(error => { throw lost(`does not answer at ${url}: ${error.message}`); });
  const send = (method, params = {}, patience = PATIENCE) => new Promise((done, fail) => {
    if (gone) return fail(lost(gone));
    const id = ++last, late = setTimeout(() => take(id)?.fail(lost(`gives no answer to ${method}`)), patience);
    waiting.set(id, { done, fail, late });
    socket.send(JSON.stringify({ id, method, params }));
  });
  return { socket, send };
}

// Until something is so, a minute at most; whether it came.
export async function comes(is, patience = MINUTE) {
  for (const late = performance.now() + patience; ; await sleep(40)) {
    if (await is()) return true;
    if (performance.now() > late) return false;
  }
}

// After another size of the window: the page knows it, and has heard of it, which it does before it is painted.
export async function sized(run, width, height) {
  await comes(() => run(`innerWidth === ${width} && innerHeight === ${height}`), 10_000);
  await run('new Promise(done => { requestAnimationFrame(() => setTimeout(done)); setTimeout(done, 2000); })');
}
