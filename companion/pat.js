// The way to `pat` itself. A caller takes words and the input's bytes, and gives {status, text}: the exit status, and what was
// written.

export { readVerdict, isOpen } from './verdict.js';

const MOST_OUTPUT = 1 << 30;              // bytes

/** A caller for a program of this name; for node alone. */
export async function nativePat(program) {
  const { spawnSync } = await import('node:child_process');
  return (words, input) => {
    const { error, status, signal, stdout } = spawnSync(program, words, { input, maxBuffer: MOST_OUTPUT });
    // A program that answers before it has read all closes its input: that is no failure.
    if (error && !(error.code === 'EPIPE' && status !== null)) throw error;
    if (status === null) throw new Error(`${program} was ended by ${signal}`);
    return { status, text: stdout.toString('utf8') };
  };
}
