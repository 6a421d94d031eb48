// Where the program `pat` is: what PAT names, or what this checkout built, or `pat` on the path.

import { existsSync, realpathSync } from 'node:fs';
import { dirname, join } from 'node:path';
import { fileURLToPath } from 'node:url';

export function findPat() {
  const top = join(dirname(fileURLToPath(import.meta.url)), '..');
  // The proved one, or the one that ./pat compiled.
  const built = ['crates/pat_cli/out/pat_cli', 'out/quick/pat'].map((path) => join(top, path)).find((path) => existsSync(path));
  return process.env.PAT || built || 'pat';
}
/** Whether a module is the one that node was asked to run. */
export function isMain(url) {
  const [, asked] = process.argv;
  return asked !== undefined && existsSync(asked) && fileURLToPath(url) === realpathSync(asked);
}
