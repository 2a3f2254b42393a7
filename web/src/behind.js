// What nobody waits for: the lists of every k from 0 to 8, and what the toolchain warns of. It is asked behind all else, and what comes too
// late for its text is left.
// Tried by web/test/warnings.mjs and web/test/lecture.mjs.

import { compileText } from './toolchain.js';
import { readProgram } from './program.js';
import { warningsOf } from './warnings.js';

const KS = [0, 1, 2, 3, 4, 5, 6, 7, 8];

async function findLists(bench) {
  const { turn, builtText, builtK, program, ownBuilt } = bench, lists = [];
  for (const k of KS) {
    const known = k === builtK && !ownBuilt, answer = known ? {} : await compileText(builtText, k, true);
    if (turn !== bench.turn) return;
    lists.push(known ? program.lists : answer.refusal ? null : readProgram(answer.text).lists);
  }
  Object.assign(bench, { lists, listsOf: builtText });
  bench.changed('lists');
}

export async function findRest(bench) {
  const { turn, builtText, builtK } = bench;
  if (!bench.lists) await findLists(bench);
  if (turn !== bench.turn || bench.warnedText === builtText) return;
  const warnings = await warningsOf(builtText, builtK);
  if (turn !== bench.turn) return;
  Object.assign(bench, { warnings, warnedText: builtText });
  if (warnings.length) bench.changed('rows');
}
