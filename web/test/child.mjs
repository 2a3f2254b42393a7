// The processes of a browser: each that is started is ended, with all that it has started and with its folder, by `end`, or when these
// tests end, in whichever way.
import { spawn } from 'node:child_process';
import { mkdtempSync, rmSync } from 'node:fs';
import { tmpdir } from 'node:os';
import { join } from 'node:path';
import { sleep } from './socket.mjs';

const running = new Set();
const removed = folder => rmSync(folder, { recursive: true, force: true, maxRetries: 5, retryDelay: 200 });
// (a group of its own, so that a signal reaches those that it has started)
const signal = ({ child }, name) => { try { process.kill(-child.pid, name); } catch { /* none is left */ } };

// Starts a browser with a new folder, `words(folder)` being its words, and waits until what it writes to its errors has the pattern, whose
// first group `drive` gets. Answers what `drive` answers, with `close`, which ends it; where that fails, it is ended as well.
export async function started({ name, binary, words, pattern, more = () => ({}) }, drive) {
  const folder = mkdtempSync(join(tmpdir(), 'workbench-'));
  const child = spawn(binary, words(folder), { stdio: ['ignore', 'ignore', 'pipe'], detached: true, env: { ...process.env, ...more(folder) } });
  const one = { child, folder, over: new Promise(done => { child.once('exit', done); child.once('error', done); }) };
  running.add(one);
  try {
    const browser = await drive(await said(name, child, pattern));
    return Object.assign(browser, { folder, async close() { browser.drop(); await end(one); } });
  } catch (error) {
    await end(one);
    throw error;
  }
}
function said(name, child, pattern) {
  let text = '';
  return new Promise((done, fail) => {
    const late = setTimeout(() => fail(new Error(`${name} does not say where it listens: ${text}`)), 120_000);
    const over = words => { clearTimeout(late); fail(new Error(`${name} ${words}: ${text}`)); };
    child.stderr.on('data', bytes => {
      text = (text + bytes).slice(-20_000);
      const found = pattern.exec(text);
      if (found) { clearTimeout(late); done(found[1]); }
    });
    child.once('exit', () => over('ended'));
    child.once('error', error => over(String(error)));
  });
}

// Ends it: politely, and after ten seconds by force.
async function end(one) {
  if (!running.has(one)) return;
  signal(one, 'SIGTERM');
  const late = setTimeout(() => signal(one, 'SIGKILL'), 10_000);
  await one.over;
  clearTimeout(late);
  signal(one, 'SIGKILL');
  running.delete(one);
  // (processes of its own may write there for a moment longer)
  try { removed(one.folder); } catch { await sleep(2000); removed(one.folder); }
}
process.on('exit', () => {
  for (const one of running) { signal(one, 'SIGKILL'); try { removed(one.folder); } catch { /* it is still written to */ } }
});
for (const [name, status] of [['SIGTERM', 143], ['SIGINT', 130], ['SIGHUP', 129]]) process.once(name, () => process.exit(status));
