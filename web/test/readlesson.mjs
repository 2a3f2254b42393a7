// Says whether a lesson's file can be read, or which lines cannot and why. What its conditions and keys come to is not tried here.
//   node web/test/readlesson.mjs FILE      status 1 where a line is refused
import { readdirSync, readFileSync } from 'node:fs';
import { readLesson } from '../src/lessontext.js';
import { EXAMPLES } from './paths.mjs';

const [file, ...more] = process.argv.slice(2);
if (!file || more.length) { console.error('usage: node web/test/readlesson.mjs FILE'); process.exit(2); }
const names = readdirSync(EXAMPLES).filter(name => /\.as[lm]$/.test(name));
const examples = Object.fromEntries(names.map(name => [name, { text: readFileSync(EXAMPLES + name, 'utf8') }]));
const { lesson, refusals = [] } = readLesson(readFileSync(file, 'utf8'), examples);
for (const { line, words } of refusals) console.error(`${file}:${line}: ${words}`);
if (refusals.length) process.exit(1);
console.log(`${lesson.title}: ${lesson.steps.length} steps can be read`);
