// What only the toolchain can say of a lesson: whether its programs compile, its lists are lists of their sections, and what its
// conditions name is there. What is wrong is told by the lines of the lesson.
// Tried by web/test/lessonfiles.mjs.

import { compileText, assemble } from './toolchain.js';
import { mapSource } from './places.js';
import { explainRefusal } from './refusals.js';
import { hasOwn, partsOfText, underLists } from './own.js';

// What is wrong with a program, or with the source by which a program is judged.
async function wrongText({ text, kind, k, line, first }) {
  const { refusal } = await (kind === 'asl' ? compileText(text, k) : assemble(text));
  if (!refusal) return [];
  const told = await explainRefusal(refusal, text, kind, k), lineOf = row => (first ? first + Number(row) - 1 : Number(row));
  const words = told.words.replace(/At line (\d+)/, (_, row) => 'At line ' + lineOf(row));
  const hint = told.hint ? '; ' + told.hint : '';
  return [{ line: first && told.line ? lineOf(told.line) : line, words: `the program is refused: ${words}${hint}` }];
}

async function wrongLists({ text, k, own, listLines = [] }) {
  if (!hasOwn(own)) return [];
  const { lists } = partsOfText((await compileText(text, k)).text), beyond = own.findIndex((list, s) => list !== undefined && !lists[s]);
  if (own.length > lists.length) return [{ line: listLines[own.length - 1],
    words: `the program has no section ${own.length - 1}: ${sectionsOf(lists.length)}` }];
  const { told } = await underLists(text, k, own);
  return told ? [{ line: listLines[told.list ?? Math.max(beyond, 0)] + (told.inList || 0), words: told.words }] : [];
}
const sectionsOf = n => (n > 1 ? `it has the sections 0 to ${n - 1}` : n ? 'it has section 0 alone' : 'it has none');

// (null where it is not known)
const functionsOf = async ({ text, kind }) => (kind === 'asl' ? (await mapSource(text)).functions.filter(Boolean) : []);

// A step's conditions, against the program that is open there.
function wrongStep(step, opening, functions, source) {
  const wrong = [];
  for (const { line, thread, function: name, judges } of step.until) {
    if (thread >= opening.threads) wrong.push({ line, words: `there is no thread ${thread}: there are ${opening.threads}, from 0 on` });
    if (name && functions && !functions.includes(name)) wrong.push({ line,
      words: `${opening.title} has no function "${name}"${functions.length ? `: there are ${functions.join(', ')}` : ''}` });
    if (judges && opening.kind !== 'asl' && !source) wrong.push({ line,
      words: 'lists of an assembly program are judged by its source: "source" and "end source" are missing' });
  }
  return wrong;
}

// The refusals of a lesson that was read; none where it may be opened.
export async function checkLesson(lesson) {
  const wrong = [], { source, sourceLine, k } = lesson;
  if (source) wrong.push(...await wrongText({ text: source, kind: 'asl', k, line: sourceLine, first: sourceLine + 1 }));
  let opening = null, functions = [];
  for (const step of [lesson, ...lesson.steps]) {
    if (step.opening) {
      opening = step.opening;
      functions = null;
    }
    if (step.opening && !opening.isBroken) {
      const refused = await wrongText(opening);
      wrong.push(...refused, ...(refused.length || opening.kind !== 'asl' ? [] : await wrongLists(opening)));
      functions = refused.length ? null : await functionsOf(opening);
    }
    if (step.until && opening) wrong.push(...wrongStep(step, opening, functions, source));
  }
  const rows = lesson.file.split('\n');
  return wrong.map(told => ({ row: rows[told.line - 1] ?? '', ...told }));
}
