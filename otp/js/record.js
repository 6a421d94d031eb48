// What is known of a run while it goes on. The head writes its history piece by piece; each is judged by `pat` (pieces.js), the lines
// that were shown are compared with those that it prints, byte by byte, and then it is let go. What is decided here is that comparison.
import { appendFileSync, closeSync, createReadStream, existsSync, openSync, readFileSync, unlinkSync, writeSync } from 'node:fs';
import { join } from 'node:path';
import { pieceFile } from './front.js';
import { MARK, Pieces, Refused, countLines } from './pieces.js';

const NEWLINE = 10, NOTHING = Buffer.alloc(0);

/** Where the run's text goes, as `pat run` writes it: entries as they are judged, and the lines behind them when all are known. */
export class Text {
  constructor(file, folder) {
    this.file = openSync(file, 'w');
    this.lines = join(folder, 'lines');
    writeSync(this.file, MARK);
  }
  add(entries, lines) {
    writeSync(this.file, entries);
    appendFileSync(this.lines, lines);
  }
  async end(line) {
    writeSync(this.file, '%%output\n');
    if (existsSync(this.lines)) for await (const bytes of createReadStream(this.lines)) writeSync(this.file, bytes);
    writeSync(this.file, `${line}\n`);
    closeSync(this.file);
  }
}

export class Record {
  /** `front` follows the history, so that the run can go on where a node is lost; null where it can't. `text` is a Text or null. */
  constructor({ folder, program, front, text }) {
    Object.assign(this, { folder, front, text, pieces: new Pieces(Buffer.concat([program, Buffer.from('\n')])) });
    Object.assign(this, { judged: 0, left: NOTHING, work: Promise.resolve() });
    // Of both texts what is ahead of the other one; and how many lines they have in common.
    Object.assign(this, { shown: NOTHING, printed: NOTHING, common: 0, differs: false, refusal: null });
  }

  /** These bytes were shown. */
  show(bytes) {
    this.shown = Buffer.concat([this.shown, bytes]);
    this.compare();
  }
  compare() {
    const size = Math.min(this.shown.length, this.printed.length), same = this.printed.subarray(0, size);
    if (this.differs || !this.shown.subarray(0, size).equals(same)) { this.differs = true; return; }
    this.common += countLines(same);
    this.shown = this.shown.subarray(size);
    this.printed = this.printed.subarray(size);
  }
  isWrong() { return this.differs || this.refusal !== null; }

  /** Judges the pieces that are there by now, one after another; how many were judged in all. */
  judgeWhole() {
    this.work = this.work.then(() => this.whole());
    return this.work;
  }
  async whole() {
    for (let file; !this.isWrong() && existsSync(file = pieceFile(this.folder, this.judged)); this.judged++) {
      const entries = Buffer.concat([this.left, readFileSync(file)]);
      const judged = await this.unlessRefused(entries, () => this.pieces.next(entries));
      this.left = judged.left;
      this.follow();
      unlinkSync(file);
    }
    return this.judged;
  }
  /** Where the judged pieces lead: from there the run can go on, and they aren't needed any more. */
  follow() {
    try { this.front?.takePieces(this.folder); } catch (problem) {
      this.front = { takePieces() { /* it is said where a node is lost */ }, goOn() { throw problem; } };
    }
  }

  /** Judges what is left when the run is over: its outcome, or the refusal. */
  async last() {
    await this.judgeWhole();
    if (this.refusal !== null) {
      this.text?.add(this.rest(), NOTHING);
      return this.refusal;
    }
    const entries = this.rest(), { outcome } = await this.unlessRefused(entries, () => this.pieces.last(entries));
    return this.refusal ?? outcome;
  }
  /** The entries that aren't judged. (A head that is lost may leave the front of a line.) */
  rest() {
    const files = [];
    for (let at = this.judged; existsSync(pieceFile(this.folder, at)); at++) files.push(pieceFile(this.folder, at));
    const entries = [...files, join(this.folder, 'history')].filter(existsSync).map(file => readFileSync(file));
    const all = Buffer.concat([this.left, ...entries]);
    return all.subarray(0, all.lastIndexOf(NEWLINE) + 1);
  }

  async unlessRefused(entries, judge) {
    let judged = { lines: NOTHING, left: NOTHING };
    try { judged = await judge(); } catch (problem) {
      if (!(problem instanceof Refused)) throw problem;
      this.refusal = problem.message;
    }
    const { lines, left } = judged;
    this.printed = Buffer.concat([this.printed, lines]);
    this.compare();
    this.text?.add(entries.subarray(0, entries.length - (left?.length ?? 0)), lines);
    return judged;
  }
}
