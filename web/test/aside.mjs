// The order of the calls beside the page, with a worker that is played: node web/test/aside.mjs
import { Aside, Dropped, Failed, Stopped } from '../src/aside.js';
import { comes } from './socket.mjs';

let passed = 0, failed = 0;
const check = (is, words) => { if (is) passed++; else { failed++; console.log('FAILED', words); } };
const workers = [];

// Answers when the test says so.
class Played {
  constructor() { this.asked = []; this.ended = false; workers.push(this); }
  postMessage(call) { this.asked.push(call); }
  terminate() { this.ended = true; }
  answer(i, more = {}) { this.onmessage({ data: { number: this.asked[i].number, output: this.asked[i].words, ...more } }); }
}
const fresh = (make = () => new Played(), call = words => ({ output: 'here ' + words })) => { workers.length = 0; return new Aside(make, call, () => {}); };
const outcome = promise => promise.then(answer => answer.output, error => error);

{ // one after the other; what is behind comes last
  const aside = fresh(), a = outcome(aside.ask('a')), b = outcome(aside.ask('b', '', true)), c = outcome(aside.ask('c'));
  const [worker] = workers;
  check(worker.asked.length === 1 && aside.waited, 'one call at a time');
  worker.answer(0); worker.answer(1);
  check(aside.busy && !aside.waited, 'nobody waits for what is behind');
  worker.answer(2);
  check(String([await a, await b, await c]) === 'a,b,c' && worker.asked.map(call => call.words).join() === 'a,c,b' && !aside.busy, 'order');
}
{ // a late answer to an old question
  const aside = fresh(), a = outcome(aside.ask('a'));
  const [worker] = workers;
  aside.drop();
  const b = outcome(aside.ask('b'));
  check(await a instanceof Dropped && worker.asked.length === 1, 'dropped');
  worker.answer(0);
  check(worker.asked.length === 2 && !worker.ended, 'an old call that ends soon keeps its worker');
  worker.answer(0, { output: 'old' }); worker.answer(1);
  check(await b === 'b', 'the answer is to its own question: ' + await b);
}
{ // a call that goes on though nobody wants it
  const aside = fresh(), a = outcome(aside.ask('a'));
  aside.drop();
  const b = outcome(aside.ask('b'));
  await comes(() => workers.length === 2);
  check(workers.length === 2 && workers[0].ended && await a instanceof Dropped, 'its worker is ended');
  workers[0].answer(0, { number: workers[1].asked[0].number, output: 'old' });
  workers[1].answer(0);
  check(await b === 'b', 'an ended worker is not heard: ' + await b);
}
{ // memory that only grows is given back with the worker
  const aside = fresh(), a = outcome(aside.ask('a'));
  workers[0].answer(0, { bytes: 1e6 });
  const b = outcome(aside.ask('b'));
  workers[0].answer(1, { bytes: 1e9 });
  const c = outcome(aside.ask('c'));
  workers[1].answer(0);
  check(String([await a, await b, await c]) === 'a,b,c' && workers[0].ended && !workers[1].ended, 'a worker of much memory is ended behind its answer');
}
{ // stopped
  const aside = fresh(), a = outcome(aside.ask('a')), b = outcome(aside.ask('b'));
  aside.stop();
  check(workers[0].ended && !aside.busy && await a instanceof Stopped && await b instanceof Stopped, 'all that was asked is stopped at once');
  const c = outcome(aside.ask('c'));
  workers[1].answer(0);
  check(await c === 'c', 'then a new worker answers');
}
{ // a call that fails, and workers that cannot be made, or do not start
  const aside = fresh(), a = outcome(aside.ask('a')), b = outcome(aside.ask('b'));
  workers[0].answer(0, { failed: 'unreachable' });
  check(await a instanceof Failed && workers[0].ended, 'failed');
  workers[1].answer(0);
  check(await b === 'b', 'the next call has a new worker');
  check(await outcome(fresh(() => { throw new Error('no'); }).ask('a')) === 'here a', 'no worker');
  const late = fresh(), c = outcome(late.ask('c'));
  workers[0].onerror();
  check(await c === 'here c', 'a worker that does not start');
  check(await outcome(fresh(() => { throw new Error('no'); }, () => { throw new Error('broken'); }).ask('a')) instanceof Failed, 'the page fails');
}
console.log(`aside: ${passed} checks passed, ${failed} failed`);
process.exit(failed ? 1 : 0);
