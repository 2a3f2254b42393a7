// A lesson from its text (docs/LESSONS.md): title, programs, steps with hints, conditions or choices. Each wrong line is refused with its
// number and a reason; nothing of a lesson that is refused is shown but its lines, as text.
// Tried by web/test/lessonfiles.mjs.

import { readCondition } from './conditions.js';

export const FORBIDS = { robin: 'Round robin', until: 'Until blocked', random: 'Random', go: 'the keys that go further than a step',
  which: 'which lock is missing', edit: 'another text', lists: 'other lists', k: 'another k', threads: 'another number of threads' };
const BLOCKS = ['program', 'source', 'list'];
const MOST = { lines: 20000, steps: 60, choices: 9 };
// the line of the next step: a block that reaches it lacks its `end`; a source's own `step` stands before `=`
const STEP = /^step\s+[^=\s]/;
const KEY = /^(?:[^*\s]|Left|Right|Up|Down|Home|End|Enter|Escape|open|right|list\d+)(?:\*\d{1,3})?$/;
const NUMBERS = { k: [0, 8], threads: [1, 128] };

// Lines in a block keep their blanks but those that all of them have.
function dedent(rows) {
  const least = Math.min(...rows.filter(row => row.trim()).map(row => /^ */.exec(row)[0].length), 40);
  return rows.map(row => row.slice(least) + '\n').join('');
}

class Reader {
  constructor(text, examples) {
    const rows = text.replace(/\r\n?/g, '\n').split('\n');
    Object.assign(this, { rows, examples, at: 0, refusals: [], step: null, seen: new Set(), own: new Set(),
      lesson: { title: '', about: '', answer: '', source: '', k: 3, threads: 2, forbids: [], steps: [], opening: null } });
  }
  refuse(line, words) { this.refusals.push({ line, words, row: this.rows[line - 1] ?? '' }); }

  read() {
    if (this.rows.length > MOST.lines) this.refuse(MOST.lines + 1, `a lesson has at most ${MOST.lines} lines`);
    else for (; this.at < this.rows.length; this.at++) this.take(this.rows[this.at].trim(), this.at + 1);
    this.close();
    return this;
  }
  take(row, line) {
    if (/^(#|keys\b)/.test(row)) this.own.add(line);
    if (!row || row.startsWith('#')) return;
    const [, word, said] = /^(\S+) *(.*)$/.exec(row);
    const known = Object.hasOwn(WORDS, word) && WORDS[word];
    if (!this.seen.size && word !== 'lesson') this.refuse(line, 'the first line is "lesson" and the title');
    else if (!known) this.refuse(line, `"${word}" is no word of a lesson`);
    else this.put(word, said, line, known);
    this.seen.add('lesson');
  }
  put(word, said, line, { place, once = true, take }) {
    const block = BLOCKS.includes(word) ? this.block(word, line) : '';
    if (!this.step && /^(example|program)$/.test(word)) this.named = true; // (what is wrong with it is told by its line)
    if (block === null) return word === 'program' && this.openBroken(said, line);
    if (place === 'step' && !this.step) return this.refuse(line, `"${word}" stands after a "step"`);
    if (place === 'head' && this.step) return this.refuse(line, `"${word}" stands before the first "step"`);
    if (!said && word !== 'source') return this.refuse(line, `something is missing after "${word}"`);
    const key = (place === 'end' ? '' : this.lesson.steps.length) + ' ' + word;
    if (once && this.seen.has(key)) return this.refuse(line, `"${word}" stands here twice`);
    this.seen.add(key);
    return take(this, said, line, block);
  }
  // The lines up to `end WORD`; nothing where that is missing, also before the next step: then what stands in between is passed over.
  block(word, line) {
    const from = this.at + 1, rest = this.rows.slice(from).map(row => row.trim()), length = rest.indexOf('end ' + word);
    const step = rest.findIndex(row => STEP.test(row));
    if (length >= 0 && (step < 0 || length < step)) {
      this.at = from + length;
      return dedent(this.rows.slice(from, from + length));
    }
    this.at = step < 0 ? this.rows.length : from + step - 1;
    this.refuse(line, `the ${word} has no \`end ${word}\`` + (step < 0 ? '' : ` before the \`step\` in line ${from + step + 1}`));
    return null;
  }
  number(word, said, line) {
    const [low, high] = NUMBERS[word], n = Number(said);
    if (/^\d{1,3}$/.test(said) && n >= low && n <= high) return n;
    return this.refuse(line, `${word} is a number from ${low} to ${high}`);
  }
  // The program of the present step, or of the lesson.
  open(opening, line) {
    const { lesson } = this, owner = this.step || lesson;
    if (owner.opening) return this.refuse(line, 'a program stands here already');
    owner.opening = { own: [], schedule: [], line, k: lesson.k, threads: lesson.threads, ...opening };
  }
  // One that is refused stands there, so that what is said of it is not taken for the one before it.
  openBroken(title, line) { this.open({ title, kind: title.slice(-3), text: '', isBroken: true }, line); }
  get opening() { return (this.step || this.lesson).opening; }

  close() {
    const { lesson } = this, last = this.rows.length;
    if (!this.seen.size) this.refuse(1, 'the first line is "lesson" and the title');
    if (!lesson.opening && !this.named) this.refuse(last, 'there is no program: "example" and a name, or "program" and a name');
    if (!lesson.steps.length) this.refuse(last, 'there is no "step"');
    let title = lesson.opening?.title;
    for (const step of lesson.steps) {
      this.closeStep(step);
      if (step.opening && step.opening.title === title) this.refuse(step.opening.line, 'a program of this name is open already');
      title = step.opening?.title || title;
    }
  }
  // The lines that others get: all but keys and what stands behind `#`, which may tell how it is done and which the page does not need.
  given() { return this.rows.map((row, i) => ({ row, line: i + 1 })).filter(({ line }) => !this.own.has(line)); }
  closeStep(step) {
    if (!step.asks && !step.choices.length) this.refuse(step.line, 'this step has no "until", and no "choice"');
    if (step.choices.length === 1) this.refuse(step.line, 'this step has one "choice" only');
    if (step.choices.length && !step.right) this.refuse(step.line, 'this step has no "right" choice');
    if (step.right && !step.choices.includes(step.right)) this.refuse(step.rightLine, 'this is none of the choices');
  }
}

// What each word does, where it stands, and whether it stands there once.
const text = name => (reader, said) => { reader.lesson[name] = said; };
const ofStep = name => (reader, said) => { reader.step[name] = said; };
const WORDS = {
  lesson: { place: 'head', take: text('title') }, about: { place: 'head', take: text('about') },
  answer: { place: 'end', take: text('answer') },
  source: { place: 'head', take: (reader, said, line, block) => Object.assign(reader.lesson, { source: block, sourceLine: line }) },
  example: { take: (reader, said, line) => {
    if (!Object.hasOwn(reader.examples, said)) {
      reader.openBroken(said, line);
      return reader.refuse(line, `the page has no example "${said}"`);
    }
    reader.open({ text: reader.examples[said].text, kind: reader.examples[said].kind, title: said }, line);
  } },
  program: { take: (reader, said, line, block) => {
    if (!/^[\w.-]+\.as[lm]$/.test(said)) {
      reader.openBroken(said, line);
      return reader.refuse(line, 'the name of a program ends in .asl or .asm');
    }
    reader.open({ text: block, kind: said.slice(-3), title: said, first: line + 1 }, line);
  } },
  list: { once: false, take: (reader, said, line, block) => {
    if (!/^\d{1,4}$/.test(said)) return reader.refuse(line, 'after "list" stands the number of a section');
    if (!reader.opening) return reader.refuse(line, 'a list stands after its program');
    if (reader.opening.kind === 'asm') return reader.refuse(line, 'an assembly program has its lists itself');
    reader.opening.own[Number(said)] = block;
    (reader.opening.listLines ||= [])[Number(said)] = line;
  } },
  k: { take: (reader, said, line) => { const of = reader.opening || reader.lesson; of.k = reader.number('k', said, line) ?? of.k; } },
  threads: { take: (reader, said, line) => {
    const of = reader.opening || reader.lesson;
    of.threads = reader.number('threads', said, line) ?? of.threads;
  } },
  steps: { take: (reader, said, line) => {
    if (!reader.opening) return reader.refuse(line, 'steps stand after their program');
    const steps = said.split(/\s+/).map(Number), bad = steps.find(t => !Number.isInteger(t) || t < 0 || t >= reader.opening.threads);
    if (bad !== undefined) return reader.refuse(line, 'each step is the number of a thread');
    reader.opening.schedule = steps;
  } },
  forbid: { take: (reader, said, line) => {
    const words = said.split(/[\s,]+/), other = words.find(word => !Object.hasOwn(FORBIDS, word));
    if (other !== undefined) return reader.refuse(line, `"${other}" cannot be forbidden: ${Object.keys(FORBIDS).join(', ')}`);
    (reader.step || reader.lesson).forbids = words;
  } },
  step: { once: false, take: (reader, said, line) => {
    if (reader.lesson.steps.length >= MOST.steps) return reader.refuse(line, `a lesson has at most ${MOST.steps} steps`);
    reader.step = { text: said, line, hint: '', then: '', forbids: [], opening: null, until: [], choices: [], right: '',
      keys: [] };
    reader.lesson.steps.push(reader.step);
  } },
  hint: { place: 'step', take: ofStep('hint') }, then: { place: 'step', take: ofStep('then') },
  until: { place: 'step', once: false, take: (reader, said, line) => {
    reader.step.asks = true; // (what is wrong with it is told by its line)
    const condition = readCondition(said);
    if (condition.refusal) return reader.refuse(line, condition.refusal);
    reader.step.until.push({ ...condition, line });
  } },
  choice: { place: 'step', once: false, take: (reader, said, line) => {
    if (reader.step.choices.includes(said)) return reader.refuse(line, 'this choice stands here twice');
    if (reader.step.choices.length >= MOST.choices) return reader.refuse(line, `a step has at most ${MOST.choices} choices`);
    reader.step.choices.push(said);
  } },
  keys: { place: 'step', once: false, take: (reader, said, line) => {
    const other = said.startsWith('type ') ? undefined : said.split(/\s+/).find(word => !KEY.test(word));
    if (other !== undefined) return reader.refuse(line, `"${other}" is no key`);
    reader.step.keys.push(said);
  } },
  right: { place: 'step', take: (reader, said, line) => Object.assign(reader.step, { right: said, rightLine: line }) },
};

// The program of a step: the last one that was opened up to it.
export function openingAt({ opening, steps }, number) {
  for (let i = Math.min(number, steps.length - 1); i >= 0; i--) if (steps[i].opening) return steps[i].opening;
  return opening;
}

export const isLesson = text => /^(?:\s*(?:#[^\n]*)?\n)*\s*lesson\b/.test(text);

// A lesson, or the refusals of its lines and what could be read. `file` is its text, `bare` what others get of it.
export function readLesson(text, examples) {
  const reader = new Reader(text, examples).read(), { lesson, refusals } = reader, given = reader.given();
  const read = { ...lesson, file: text, given, bare: given.map(({ row }) => row).join('\n') };
  return refusals.length ? { refusals: refusals.sort((a, b) => a.line - b.line), partly: read } : { lesson: read };
}
