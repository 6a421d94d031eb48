// What goes wrong outside of the run, and the exit statuses of pat-otp.

export const STATUS = { done: 0, refused: 1, usage: 2, unread: 3, unwritten: 4, machine: 5, budget: 6, waiting: 7, full: 8, lost: 10 };

export class Problem extends Error { constructor(status, message) { super(message); this.status = status; } }

/** What comes of the call; a problem with the file in words, where the system refuses it. */
export function withFile(status, file, call) {
  try { return call(); } catch (problem) {
    if (!problem.syscall) throw problem;
    throw new Problem(status, `${file}: ${problem.message.replace(/^\w+: /, '').replace(/, \w+( '.*')?$/s, '')}`);
  }
}
