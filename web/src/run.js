// A run that is stepped: a session of the toolchain (docs/EMBEDDING.md, "Sessions from C"), the events that it has replied, and the
// states at positions that were looked at, as the session prints them there. The session is the page's own: a step and what it changed
// cost less than a message to a worker. What of many steps is asked beside the page has no answer for a while; until then the run may
// be looked at, and only what has waited for the answer may change it.
// Tried by web/test/moving.mjs and web/test/views.mjs.

import { openSession, record, trace } from './toolchain.js';
import { readTrace, readEvent } from './trace.js';
import { readView, readInto } from './view.js';

const KEPT_STATES = 200;
const FEW = 32; // steps whose places are looked up one by one; those of more are told by a trace of the whole run
const BREATH = 4096; // steps after which the page may do something else
const NO_REQUEST = { nodes: new Map(), clashes: [] };

export class Run {
  constructor(program, image, threads) {
    Object.assign(this, { program, image, threads, events: [], states: new Map(), session: openSession(image, threads) });
    this.calls = program.code.some(line => line.startsWith('call '));
  }
  // Gives the session's memory back; nothing may be asked afterwards.
  close() { this.session.close(); }
  get length() { return this.events.length; }
  get schedule() { return this.events.map(event => event.thread); }
  file() { return this.recordOf(this.schedule); }

  async recordOf(schedule) {
    const answer = await record(this.image, this.threads, schedule);
    if (answer.refusal) throw new Error(answer.refusal);
    return answer.output;
  }
  // Appends steps, all or none; answers the refusal of the toolchain, if any.
  async extend(schedule) {
    const from = this.length;
    try {
      this.session.go(from);
      const events = schedule.length > FEW ? await this.stepMany(schedule)
        : schedule.map((thread, i) => this.stepOne(thread, from + i));
      this.session.go(from + schedule.length);
      this.tellDepths(events);
      for (const event of events) this.events.push(event);
      return null;
    } catch (error) {
      this.session.cut(from);
      return error.message;
    }
  }
  stepOne(thread, k) {
    const place = this.placeOf(thread);
    this.session.step(thread);
    return readEvent(this.session.log(k), place);
  }
  async stepMany(schedule) {
    for (let i = 0; i < schedule.length; i++) {
      this.session.step(schedule[i]);
      if (i % BREATH < BREATH - 1) continue;
      await new Promise(done => setTimeout(done));
      this.session.go(this.length + i + 1);
    }
    const answer = await trace(await this.recordOf([...this.schedule, ...schedule]));
    if (answer.refusal) throw new Error(answer.refusal);
    return readTrace(answer.text, this.length);
  }
  // Where a thread is, which runs; one that has ended is nowhere.
  placeOf(thread) {
    const line = new RegExp(`^thread ${thread} pc (\\d+) depth (\\d+)$`, 'm').exec(this.session.view());
    return line ? { pc: Number(line[1]), depth: Number(line[2]) } : { pc: -1, depth: 0 };
  }
  // The depth of an event's thread after it is that before the thread's next event; after its last one, that at the end.
  tellDepths(events) {
    const next = readView(this.session.view()).threads.map(thread => thread.depth || 0);
    for (let i = events.length - 1; i >= 0; i--) {
      const event = events[i];
      event.after = next[event.thread];
      next[event.thread] = event.depth;
    }
  }
  truncate(length) {
    if (length >= this.length) return;
    this.session.cut(length);
    this.events.length = length;
    for (const k of this.states.keys()) if (k > length) this.states.delete(k);
  }
  // How many steps a schedule has in common with this run.
  sameAs(schedule) {
    const differs = schedule.findIndex((thread, k) => thread !== this.events[k]?.thread);
    return differs < 0 ? schedule.length : differs;
  }
  view(k) {
    if (!this.states.has(k)) {
      if (this.states.size > KEPT_STATES) this.states.delete(this.states.keys().next().value);
      this.session.go(k);
      this.states.set(k, readView(this.session.view() + this.session.asks() + this.session.objects()));
    }
    return this.states.get(k);
  }
  // The state with the frames of all threads; a program without calls has but one each, that of the view. They take longer than
  // all the rest.
  viewWithFrames(k) {
    const state = this.view(k);
    if (this.calls && !state.framed) {
      this.session.go(k);
      readInto(state, this.session.stack());
      state.framed = true;
    }
    return state;
  }
  // A register of the top frame at position k; a view of many positions need not be read whole.
  register(k, thread, register) {
    this.session.go(k);
    return new RegExp(`^reg ${thread} ${register} (.*)$`, 'm').exec(this.session.view())?.[1];
  }
  // The request of a thread at position k, and who is in the way; none where it stands at no `acq`.
  request(k, thread) { return this.view(k).requests.get(thread) || NO_REQUEST; }
  classOf(k, object) { return this.view(k).classes[object]; }
}
