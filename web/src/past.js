// What was there before: the moments that undo goes back to, and those that redo brings again.
// Tried by web/test/keeping.mjs.

const MOST = 200;

export class Past {
  constructor() { Object.assign(this, { before: [], after: [], typing: false }); }
  get canGoBack() { return this.before.length > 0; }
  get canGoForward() { return this.after.length > 0; }

  // A moment that something is to take the place of. What is typed in a row takes the place of one.
  keep(moment, typing = false) {
    this.before.push(moment);
    if (this.before.length > MOST) this.before.shift();
    Object.assign(this, { after: [], typing });
  }
  // What is typed from now on is another row.
  rest() { this.typing = false; }
  back(present) { return this.swap(this.before, this.after, present); }
  forward(present) { return this.swap(this.after, this.before, present); }
  swap(from, to, present) {
    if (!from.length) return null;
    to.push(present());
    this.rest();
    return from.pop();
  }
}
