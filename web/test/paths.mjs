// Where things are: the repository, the page, the examples, the native program.
import { fileURLToPath } from 'node:url';
import { join } from 'node:path';

export const ROOT = fileURLToPath(new URL('../..', import.meta.url));
export const EXAMPLES = join(ROOT, 'examples/');
export const ASL = process.env.ASL || join(ROOT, 'crates/asl/out/asl');
export const PAGE = process.env.PAGE || 'file://' + join(ROOT, 'docs/workbench.html');
export const READY = 'Boolean(window.workbench && workbench.ready && !workbench.isBusy?.())';
