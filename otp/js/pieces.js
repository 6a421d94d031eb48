// Judges a history of any length in pieces. `pat`, whose answers are proved, decides whether the entries of a piece can be taken one
// after another from where the piece begins, what they print and how it stands then (`replay`), and which checkpoint they lead to
// (`checkpoint`). What is decided here: where a piece ends; that the next one begins with that checkpoint, byte for byte as it was
// written, the first one at the program's start; and that entries and steps are added up.
import { pat } from './pat.js';

/** As many entries, where nothing else is said, and at most. */
export const PIECE = 250_000, LONGEST_PIECE = 500_000;
export const MARK = Buffer.from('%%history\n');
const DERIVATION = Buffer.from('%%derivation\n');
const NEWLINE = 10, NOTHING = Buffer.alloc(0);
/** Where no certificate is found for the checkpoint that a piece leads to, it is cut off 1, 2, 4 .. entries sooner, so many times. */
const TRIES = 10;

/** `pat` refuses the history; the message is its answer, with numbers that count from the history's beginning. */
export class Refused extends Error {}

/** The offset behind the first line that is just this one; -1 where none is. */
export function behindLine(text, line) {
  for (let at = text.indexOf(line); at >= 0; at = text.indexOf(line, at + 1))
    if (at === 0 || text[at - 1] === NEWLINE) return at + line.length;
  return -1;
}

/** The lines that a text of `replay` shows, and how it stands. */
function taken({ text }) {
  const cut = text.lastIndexOf(NEWLINE, text.length - 2) + 1, [word, steps, ...rest] = text.toString('utf8', cut).trim().split(' ');
  return { lines: text.subarray(0, cut), word, steps: Number(steps), rest };
}

/** What a promise came to, by which others were waited for as well. */
function valueOf({ status, value, reason }) {
  if (status === 'rejected') throw reason;
  return value;
}

export class Pieces {
  /** `front` is what stands before the history: a program, or a program and what a piece begins with. */
  constructor(front) {
    const cut = behindLine(front, DERIVATION);
    this.program = cut < 0 ? front : front.subarray(0, cut - DERIVATION.length);
    // (`checkpoint` asks for a derivation and a checkpoint, `replay` takes a program alone as well)
    this.begin = cut < 0 ? null : front;
    Object.assign(this, { front, entries: 0, steps: 0, offset: front.length + MARK.length, asked: 0 });
  }

  /** Judges the last piece, and so the whole: what it prints and its outcome, in steps of the whole history. */
  async last(entries) {
    const { lines, word, steps, rest } = taken(this.accepted(await this.ask('replay', entries)));
    return { lines, outcome: [word, this.steps + steps, ...rest].join(' ') };
  }

  /** Judges a piece behind which others come: {lines, left}, what it prints, and the entries that are left for the next one. */
  async next(entries) {
    // (both at once; a refusal is said first)
    const asked = [this.ask('replay', entries), this.leadsTo(entries)];
    const [answer, led] = await Promise.allSettled(asked), whole = this.accepted(valueOf(answer)), leads = valueOf(led);
    const { size, text } = leads.status === 0 ? { size: entries.length, text: leads.text } : await this.sooner(entries, leads);
    if (size === 0) return { lines: NOTHING, left: entries };
    const piece = entries.subarray(0, size);
    const { lines, steps } = taken(size === entries.length ? whole : this.accepted(await this.ask('replay', piece)));
    this.steps += steps;
    this.entries += countLines(piece);
    this.offset += size;
    this.front = this.begin = Buffer.concat([this.program, text]);
    return { lines, left: entries.subarray(size) };
  }

  /** What `checkpoint` says of where these entries lead. */
  async leadsTo(entries) {
    if (!this.begin) {
      const start = await pat(['checkpoint', '--steps', '0'], [this.program]);
      if (start.status !== 0) throw new Error(`the program has no checkpoint: ${start.text}`);
      this.begin = Buffer.concat([this.program, start.text]);
    }
    return pat(['checkpoint'], [this.begin, MARK, entries]);
  }

  /** Of which so many bytes lead to a checkpoint that has its certificates, and that; 0 where none is found. */
  async sooner(entries, leads) {
    let size = entries.length;
    for (let tries = 0, steps = 1; tries < TRIES; tries++, steps *= 2) {
      this.unshown(leads);
      for (let step = 0; step < steps && size > 0; step++) size = entries.lastIndexOf(NEWLINE, size - 2) + 1;
      if (size === 0) break;
      leads = await this.leadsTo(entries.subarray(0, size));
      if (leads.status === 0) return { size, text: leads.text };
    }
    return { size: 0, text: NOTHING };
  }
  unshown({ text }) {
    if (!text.toString().startsWith('unshown at line ')) throw new Error(`no checkpoint behind entry ${this.entries}: ${text}`);
  }

  /** Behind entries that are refused: what is wrong with the text of these, which come next; null where nothing is. */
  async badText(entries) {
    this.offset += this.asked;
    const { text } = await this.ask('replay', entries);
    return /^bad text at \d+\n$/.test(text) ? this.moved(text.toString()) : null;
  }

  ask(word, entries) {
    this.asked = entries.length;
    return pat([word], [this.front, MARK, entries]);
  }
  accepted(answer) {
    if (answer.status === 0) return answer;
    throw new Refused(this.moved(answer.text.toString()));
  }
  /** An answer about a piece as one about the whole. */
  moved(answer) {
    const ownOffset = this.front.length + MARK.length;
    const [, what, number] = /^(refused at entry|bad text at) (\d+)\n$/.exec(answer) ?? [];
    if (what === 'refused at entry') return `${what} ${this.entries + Number(number)}`;
    if (what && Number(number) >= ownOffset) return `${what} ${this.offset + Number(number) - ownOffset}`;
    if (this.entries === 0) return answer.trimEnd();
    throw new Error(`behind entry ${this.entries} the checkpoint isn't taken as it was written: ${answer.trimEnd()}`);
  }
}

/** How many lines end in a text. */
export function countLines(text) {
  let count = 0;
  for (let at = text.indexOf(NEWLINE); at >= 0; at = text.indexOf(NEWLINE, at + 1)) count++;
  return count;
}
