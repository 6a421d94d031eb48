// Asks `pat` about texts as they change: one check at a time, and always the newest text. What it answers of an older one is thrown away.

import { spawn } from 'node:child_process';

const LONGEST = 30000;                      // milliseconds until a check is given up

export class Checks {
  /** `done(document, version, answer)` gets each answer {status, text}, or {fault} where there is none. */
  constructor(program, done) { Object.assign(this, { program, done, waiting: new Map(), running: null }); }

  ask(document) {
    this.waiting.set(document.uri, document);
    this.goOn();
  }
  forget(uri) { this.waiting.delete(uri); }

  async goOn() {
    if (this.running) return;
    const [next] = this.waiting.values();
    if (!next) return;
    this.waiting.delete(next.uri);
    const { version, source } = next;
    this.running = next;
    const answer = await derive(this.program, source.bytes);
    this.running = null;
    if (next.version === version) this.done(next, answer);
    this.goOn();
  }
}

/** What `pat derive` answers: the refusal that `check` has, or the derivation. */
export function derive(program, bytes) {
  return new Promise(resolve => {
    const child = spawn(program, ['derive'], { stdio: ['pipe', 'pipe', 'ignore'] }), written = [];
    const timer = setTimeout(() => child.kill('SIGKILL'), LONGEST);
    const end = answer => { clearTimeout(timer); resolve(answer); };
    child.on('error', problem => end({ fault: `${program} can't be started: ${problem.message}` }));
    child.stdin.on('error', () => {});      // one that answers before it has read all closes its input
    child.stdout.on('data', chunk => written.push(chunk));
    child.on('close', status => end(status === null ? { fault: `no answer within ${LONGEST / 1000} s` }
      : { status, text: Buffer.concat(written).toString('utf8') }));
    child.stdin.end(bytes);
  });
}
