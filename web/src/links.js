// What a link says: that is opened here, or it is told why it cannot be.
// Tried by web/test/opening.mjs.

import { bench, examples } from './desk.js';
import { MOST_THREADS } from './bench.js';
import { byId } from './dom.js';
import { openGivenLink, openTurns } from './extras.js';
import { takeLook } from './look.js';
import { fragmentsOf, openOpening } from './opening.js';
import { lessonOf, openLesson } from './panels/lesson.js';
import { unpackText } from './pack.js';
import { closeTrouble, tellTrouble } from './panels/trouble.js';
import { DAMAGED, fromFragment } from './share.js';

// Does what a fragment says; answers whether that is a program. Its look is taken where it is the page's own address.
export async function loadFragment(fragment, withLook) {
  try {
    openTurns(bench, fragment);
    if (await openGivenLink(bench, fragment, examples)) return true;
    const { said, whole } = await fromFragment(fragment, examples, MOST_THREADS), lesson = await lessonOf(said);
    if (withLook) takeLook(said);
    if (said.has('lesson-text') && !lesson) tellTrouble('The link', `its lesson is damaged${DAMAGED}.`);
    if (whole.title) bench.load({ ...whole, lesson });
    else if (lesson) return openLesson(bench, lesson.number, examples, { ...whole, ...lesson });
    else if (said.has('lesson')) tellTrouble('The link', `there is no lesson ${said.get('lesson').slice(0, 20)}.`);
    else if (!withLook && !said.has('lesson-text')) tellTrouble('The link', 'it says nothing that can be opened here.');
    return Boolean(whole.title);
  } catch (error) { tellTrouble('The link', error.message + '.'); return false; }
}

// Opens the link in words that were pasted. A link that a mail broke is whole again without blanks; but words may stand behind a link.
export async function openLink(words) {
  closeTrouble();
  const all = fragmentsOf(words);
  for (const fragment of all) if (await isWhole(fragment)) return loadFragment(fragment, false);
  return loadFragment(all.at(-1), false);
}
const NUMBERS = /[#&](?:k|threads|at|lesson|done|size)=(?!\d+(?:&|$))/;
async function isWhole(fragment) {
  const [, letters] = /^#(?:lesson-text|answer)=(.*)$/.exec(fragment) || [];
  if (NUMBERS.test(fragment)) return false;
  return (letters ? unpackText(letters) : fromFragment(fragment, examples, MOST_THREADS)).then(() => true, () => false);
}
export const openLinkOrFiles = () => openOpening(() => byId('file').click(), openLink);
