// The same schedule at each k: which of its steps are blocked there. It is asked of the toolchain one k at a time, when nothing has
// changed for a while, after all else, so that nothing waits for it.
// Tried by web/test/shares.mjs.

import { compile, stepLines } from './toolchain.js';
import { unlessDropped } from './aside.js';

const PAUSE = 350, MOST_EVENTS = 2000;
export const KS = [0, 1, 2, 3, 4, 5, 6, 7, 8];

export class Comparison {
  constructor(bench, told) { Object.assign(this, { bench, told, timer: 0, turn: 0, text: '', images: [], blocked: [] }); }
  get ready() { return this.blocked.length === KS.length; }

  // To be called when the text or the run is new.
  begin() {
    clearTimeout(this.timer);
    this.turn++;
    this.blocked = [];
    const { kind, run, refusal, builtText, ownBuilt } = this.bench;
    if (kind !== 'asl' || ownBuilt || !run || refusal || !run.length || run.length > MOST_EVENTS || !run.program.lists.length) return;
    if (this.text !== builtText) Object.assign(this, { text: builtText, images: [] });
    this.timer = setTimeout(() => unlessDropped(this.ask(this.turn)), PAUSE);
  }
  async ask(turn) {
    const blocked = [];
    for (const k of KS) {
      blocked.push(await this.blockedAt(k));
      if (turn !== this.turn) return;
    }
    this.blocked = blocked;
    this.told('comparison');
  }
  // Of each event whether it is blocked; null where there is no such run.
  async blockedAt(k) {
    const { bench: { run, builtK }, text, images } = this;
    if (k === builtK) return run.events.map(event => event.reply === 'blocked');
    images[k] ||= (await compile(text, k, true)).output;
    const answer = images[k] ? await stepLines(images[k], run.threads, run.schedule) : {};
    return answer.text ? answer.text.trimEnd().split('\n').map(line => line.endsWith(' blocked')) : null;
  }
  count(k) { return this.blocked[k] ? this.blocked[k].filter(Boolean).length : null; }
  // The k at which event number `event` is not blocked.
  freeAt(event) { return KS.filter(k => this.blocked[k] && !this.blocked[k][event]); }
}
