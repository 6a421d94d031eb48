// The program `pat`, which decides: what it is given on its standard input, and what it answers.
import { spawn } from 'node:child_process';
import { dirname, join } from 'node:path';
import { fileURLToPath } from 'node:url';

export const OTP = dirname(dirname(fileURLToPath(import.meta.url)));
const program = () => process.env.PAT ?? join(dirname(OTP), 'pat');

/** The exit status of who asked, where `pat` can't be asked. */
const MACHINE = 5;
class Unasked extends Error { status = MACHINE; }

/** {status, text}: its exit status and the bytes that it wrote. `parts` are the input, one behind the other. */
export function pat(words, parts) {
  return new Promise((done, failed) => {
    const child = spawn(program(), words, { stdio: ['pipe', 'pipe', 'inherit'] }), text = [];
    child.on('error', problem => failed(new Unasked(`${program()}: ${problem.message}`)));
    child.stdout.on('data', piece => text.push(piece));
    child.on('close', (status, signal) => {
      if (status === null) failed(new Unasked(`${program()} was ended by ${signal}`));
      else done({ status, text: Buffer.concat(text) });
    });
    child.stdin.on('error', () => { /* it answers before it has read all */ });
    for (const part of parts) child.stdin.write(part);
    child.stdin.end();
  });
}
