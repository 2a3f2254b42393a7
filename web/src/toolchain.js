// The commands of the toolchain that the workbench uses, with their refusals. They are called beside the page (aside.js), those that
// ask of a text and those that ask of a run each by a worker of its own, so that neither waits for the other. Sessions are the page's own.
// Tried by web/test/starting.mjs and web/test/waiting.mjs.

import { Aside } from './aside.js';
import { loadTool, workerOf } from './tool.js';

const decoder = new TextDecoder();
const tool = { call: null, calls: 0, milliseconds: 0, sessions: 0, ofText: null, ofRun: null };

// `told` hears it when somebody begins to wait for an answer, or need not wait any more.
export async function openToolchain(compiled, worker, told) {
  const { module, call } = await loadTool(compiled);
  const aside = () => new Aside(() => workerOf(worker, module), call, told);
  Object.assign(tool, { call, ofText: aside(), ofRun: aside() });
}
export const toolStatistics = () => ({ calls: tool.calls, milliseconds: tool.milliseconds, sessions: tool.sessions,
  bytes: tool.call.memory() });
export const isWaitedFor = () => tool.ofText.waited || tool.ofRun.waited;
export const isBusy = () => tool.ofText.busy || tool.ofRun.busy;
export const dropText = () => tool.ofText.drop();
export const stopAll = () => { tool.ofText.stop(); tool.ofRun.stop(); };

function timed(work) {
  const began = performance.now();
  tool.calls++;
  try { return work(); } finally { tool.milliseconds += performance.now() - began; }
}

async function ask(aside, words, input, behind) {
  const { status, output, errors } = await aside.ask(words.map(String), input, behind);
  if (status === 0) return { output };
  const said = /^asl: (.*)/.exec(errors);
  return { refusal: said ? said[1].trim() : errors.trim() };
}
const ofText = (words, input, behind) => ask(tool.ofText, words, input, behind);
const ofRun = (words, input, behind) => ask(tool.ofRun, words, input, behind);
const text = async answer => { const { output, refusal } = await answer; return refusal ? { refusal } : { text: decoder.decode(output) }; };

export const compile = (source, k, behind) => ofText(['compile', '--k', k], source, behind);
export const compileText = (source, k, behind) => text(ofText(['compile', '--k', k, '--text'], source, behind));
// Whether the lists of a program are enough for a source. (Of a lesson, which a newer text does not end.)
export const checkLists = (source, program, k) => text(ofRun(['check', '--k', k], `${source}\0${program}`));
// Whether the module has a command: others answer wrong usage, 2.
export const hasCommand = name => tool.call([name, '--help']).status === 0;
// The source as a C program; its lists as one JSON document.
export const cText = (source, k) => text(ofText(['c', '--k', k], source));
export const listsText = (source, k, behind) => text(ofText(['lists', '--k', k], source, behind));
export const mapText = source => text(ofText(['map'], source));
export const explainText = (source, k, all) => text(ofText(['explain', '--k', k, ...(all ? ['--all'] : [])], source));
export const classesText = (source, all) => text(ofText(['explain', '--classes', ...(all ? ['--all'] : [])], source));
export const diagnoseText = (source, k) => text(ofText(['diagnose', '--k', k], source));
export const diagnoseAssembly = source => text(ofText(['diagnose', '--asm'], source));
export const assemble = source => ofText(['asm'], source);
export const disassemble = image => text(ofText(['dis'], image));
export const record = (image, threads, schedule) => ofRun(['step', '--threads', threads, '--record', ...schedule], image);

// The lines of the steps themselves: `INDEX THREAD REPLY`.
export const stepLines = (image, threads, schedule) => text(ofRun(['step', '--threads', threads, ...schedule], image, true));
export const trace = runFile => text(ofRun(['log', '--trace'], runFile));

// A session (asl.mjs): what it refuses it throws. It is open until it is closed.
export function openSession(image, threads) {
  const session = timed(() => tool.call.session(image, threads));
  tool.sessions++;
  const counted = Object.entries(session).map(([name, work]) => [name, (...words) => timed(() => work(...words))]);
  return { ...Object.fromEntries(counted), close: () => { session.close(); tool.sessions--; } };
}
