// The script of this page is packed, as its module is. This unpacks all that is packed, and runs the script.
// What a person can read is in the folder web/src of the repository; web/build makes the page of it.
// Tried by web/test/starting.mjs.

import { cannotStart, unpackAll } from './packed.js';

async function load() {
  const script = document.createElement('script');
  window.carried = unpackAll(); // the script takes the rest from there
  script.textContent = await window.carried.program; // the policy of the page lets this text run, and no other
  document.body.append(script);
  script.remove(); // a page that the browser saves has it once
}

load().catch(cannotStart);
