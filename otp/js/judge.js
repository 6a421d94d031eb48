// `otp/judge`: answers what `pat replay` answers, for a history of any length, which is judged in pieces (pieces.js says what of it
// `pat` decides).
import { once } from 'node:events';
import { appendFileSync, createReadStream, mkdtempSync, rmSync } from 'node:fs';
import { tmpdir } from 'node:os';
import { join } from 'node:path';
import { LONGEST_PIECE, MARK, PIECE, Pieces, Refused, behindLine } from './pieces.js';
import { number } from './options.js';
import { pat } from './pat.js';

const USAGE = `usage: otp/judge [--piece N] [FILE]
Reads what \`pat replay\` reads, a program and a history behind it, from FILE or else standard input, and answers as it does, however
long the history is: it is judged in pieces of N entries, from 1 to ${LONGEST_PIECE}; else ${PIECE}. PAT names the program pat, else
it is the one of this checkout. Exit status: as that of \`pat replay\`, and 5 where a piece can't be judged.
`;
const STATUS = { refused: 1, usage: 2, unread: 3, machine: 5 };
/** More than a program and a checkpoint may have. */
const MOST_BYTES = 67_108_864;
const NEWLINE = 10, OUTPUT = Buffer.from('%%output\n'), NOTHING = Buffer.alloc(0);

class Unread extends Error {}

/** What is read, as far as it isn't judged yet. */
class Input {
  constructor(stream) { this.stream = stream[Symbol.asyncIterator](); this.text = NOTHING; }
  async more() {
    const { value, done } = await this.stream.next().catch(problem => { throw new Unread(problem.message); });
    if (!done) this.text = Buffer.concat([this.text, value]);
    return !done;
  }
  take(size) {
    const taken = this.text.subarray(0, size);
    this.text = this.text.subarray(size);
    return taken;
  }

  /** What stands before the line `%%history`, which is passed over; null where no line is that. */
  async front() {
    for (;;) {
      const cut = behindLine(this.text, MARK);
      if (cut >= 0) return this.take(cut).subarray(0, cut - MARK.length);
      if (this.text.length > MOST_BYTES || !await this.more()) return null;
    }
  }

  /** The next so many entries, or those that are left, up to the line `%%output`. */
  async piece(size) {
    for (let line = 0, lines = 0;;) {
      for (let end = this.text.indexOf(NEWLINE, line); end >= 0; end = this.text.indexOf(NEWLINE, line)) {
        if (this.text.subarray(line, end + 1).equals(OUTPUT)) return { entries: this.take(line), isLast: true };
        line = end + 1;
        lines += 1;
        if (lines === size) return { entries: this.take(line), isLast: false };
      }
      if (!await this.more()) return { entries: this.take(this.text.length), isLast: true };
    }
  }
}

/** The outcome of the whole; `show` gets the lines, a piece's at a time. */
async function judge(input, pieces, size, show) {
  for (let left = NOTHING;;) {
    const { entries, isLast } = await input.piece(size), piece = Buffer.concat([left, entries]);
    const judged = isLast ? await pieces.last(piece) : await pieces.next(piece);
    show(judged.lines);
    if (isLast) return judged.outcome;
    ({ left } = judged);
  }
}

/** `pat` reads a history to its end before it takes it, so a line further down that is none comes first. */
async function firstRefusal(refusal, input, pieces, size) {
  for (let isLast = false; !isLast && !refusal.startsWith('bad text');) {
    const piece = await input.piece(size);
    ({ isLast } = piece);
    refusal = await pieces.badText(piece.entries) ?? refusal;
  }
  return refusal;
}

async function main(words) {
  const [word, count] = words, size = word === '--piece' ? number(count, 1, LONGEST_PIECE) : PIECE;
  const files = word === '--piece' ? words.slice(2) : words;
  if (size === null || files.length > 1 || files[0]?.startsWith('-')) { process.stderr.write(USAGE); return STATUS.usage; }
  const input = new Input(files.length ? createReadStream(files[0]) : process.stdin), front = await input.front();
  if (front === null) {
    const { status, text } = await pat(['replay'], [input.text]);
    process.stdout.write(text);
    return status;
  }
  return answer(input, new Pieces(front), size);
}

/** Lines wait in a file: a history that is refused has none. */
async function answer(input, pieces, size) {
  const folder = mkdtempSync(join(tmpdir(), 'judge-')), lines = join(folder, 'lines');
  process.on('exit', () => rmSync(folder, { recursive: true, force: true }));
  try {
    const outcome = await judge(input, pieces, size, text => appendFileSync(lines, text));
    for await (const bytes of createReadStream(lines)) if (!process.stdout.write(bytes)) await once(process.stdout, 'drain');
    process.stdout.write(`${outcome}\n`);
    return 0;
  } catch (problem) {
    if (!(problem instanceof Refused)) throw problem;
    process.stdout.write(`${await firstRefusal(problem.message, input, pieces, size)}\n`);
    return STATUS.refused;
  }
}

try { process.exitCode = await main(process.argv.slice(2)); } catch (problem) {
  process.stderr.write(`otp/judge: ${problem.message}\n`);
  process.exitCode = problem instanceof Unread ? STATUS.unread : STATUS.machine;
}
