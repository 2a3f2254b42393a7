// Calls of the toolchain that may take long, made beside the page by a worker, one after the other, so that the page stays free. A
// call that is dropped or stopped gets no answer; if it continues, its worker is ended, and the next call has a new one. Where the
// browser makes no worker, the page makes the calls itself.
// Tried by web/test/aside.mjs and web/test/waiting.mjs.

const PATIENCE = 100; // milliseconds that a dropped call may go on
const LARGE = 2 ** 28; // bytes of memory with which a worker is ended, since memory of WebAssembly never shrinks

// Why a call has no answer: nobody wants it any more, or somebody stopped it.
export class Dropped extends Error {}
export class Stopped extends Dropped {}
export class Failed extends Error {}
// What becomes of a work whose call may be dropped.
export const unlessDropped = promise => promise.catch(error => { if (!(error instanceof Dropped)) throw error; });

// Does a work again whose call was dropped for another text; not one that was stopped.
export async function untilDone(work) {
  for (;;) {
    try { return await work(); } catch (error) { if (!(error instanceof Dropped) || error instanceof Stopped) throw error; }
  }
}

export class Aside {
  // `makeWorker` may throw; `call` is the page's own toolchain; `told` hears whether somebody waits.
  constructor(makeWorker, call, told) {
    Object.assign(this, { makeWorker, call, told, worker: null, alone: false, queue: [], current: null, last: 0, timer: 0 });
  }
  get busy() { return Boolean(this.queue.length || (this.current && !this.current.over)); }
  get waited() { return [this.current, ...this.queue].some(asked => asked && !asked.over && !asked.behind); }

  // Answers { status, output, errors }. What is asked `behind` comes after all else, and nobody waits for it.
  ask(words, input, behind = false) {
    return new Promise((done, fail) => {
      const asked = { number: ++this.last, words, input, behind, done, fail, over: false };
      const place = behind ? this.queue.length : this.queue.findIndex(other => other.behind);
      this.queue.splice(place < 0 ? this.queue.length : place, 0, asked);
      this.next();
      this.told();
    });
  }
  next() {
    if (this.current || !this.queue.length) return;
    this.current = this.queue.shift();
    const worker = this.started(), { number, words, input } = this.current;
    if (worker) worker.postMessage({ number, words, input }); else this.answerHere();
  }
  started() {
    if (this.worker || this.alone) return this.worker;
    try {
      const worker = this.worker = this.makeWorker();
      worker.onmessage = ({ data }) => { if (worker === this.worker) this.answered(data); };
      worker.onerror = () => { if (worker === this.worker) this.goAlone(); };
    } catch { this.alone = true; }
    return this.worker;
  }
  // The worker did not even start.
  goAlone() {
    this.alone = true;
    this.end();
    if (!this.current) return;
    if (!this.current.over) return this.answerHere();
    this.current = null;
    this.next();
  }
  answerHere() {
    const { number, words, input } = this.current;
    setTimeout(() => {
      try { this.answered({ number, ...this.call(words, input) }); } catch (error) { this.answered({ number, failed: error.message }); }
    });
  }
  // An answer to another call than the present one comes too late.
  answered({ number, failed, bytes = 0, ...answer }) {
    const { current } = this;
    if (!current || current.number !== number) return;
    this.current = null;
    clearTimeout(this.timer);
    if (failed || bytes > LARGE) this.end();
    if (failed) this.finish(current, 'fail', new Failed('the toolchain failed: ' + failed)); else this.finish(current, 'done', answer);
    this.next();
    this.told();
  }
  finish(asked, how, what) {
    asked.over = true;
    asked[how](what);
  }
  // Nobody wants an answer to what was asked so far.
  drop(why = new Dropped('dropped')) {
    const { current } = this;
    for (const asked of this.queue.splice(0)) this.finish(asked, 'fail', why);
    if (current && !current.over) {
      this.finish(current, 'fail', why);
      this.timer = setTimeout(() => this.abandon(), PATIENCE);
    }
    this.told();
  }
  stop() {
    this.drop(new Stopped('it was stopped'));
    this.abandon();
  }
  // Ends a call that nobody waits for; the page's own cannot be ended.
  abandon() {
    if (!this.current || !this.current.over || this.alone) return;
    clearTimeout(this.timer);
    this.current = null;
    this.end();
    this.next();
  }
  end() {
    this.worker?.terminate();
    this.worker = null;
  }
}
