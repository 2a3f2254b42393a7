// Tests of the workbench in a browser without a window, against the native program.
//   node web/test/page.mjs [--firefox] [WORD..]     WORDs are of the names of the parts to do
import { finish, takeRoom } from './kit.mjs';

await takeRoom();

await import('./starting.mjs');
await import('./views.mjs');
await import('./panels.mjs');
await import('./moving.mjs');
await import('./using.mjs');
await import('./shares.mjs');
await import('./lecture.mjs');
await import('./keeping.mjs');
await import('./notes.mjs');
await import('./opening.mjs');
await import('./large.mjs');
await import('./words.mjs');
await import('./classes.mjs');
await import('./warnings.mjs');
await import('./derived.mjs');
await import('./waiting.mjs');
await import('./own.mjs');
await import('./go.mjs');
await import('./order.mjs');
await import('./lessonfiles.mjs');
await import('./handin.mjs');
await import('./lessons.mjs');
await finish();
