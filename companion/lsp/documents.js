// Open texts, and the ways between an editor's positions (line and UTF-16 unit, from 0) and the byte offsets of `pat`.

import { Source, SyntaxProblem, parse } from '../parse.js';
import { resolve } from '../names.js';
import { Failure, INVALID_PARAMS } from './connection.js';

const LINE_END = /\r\n|\n|\r/g;

export class TextDocument {
  constructor(uri, version, text) { this.uri = uri; this.setText(text, version); }

  setText(text, version) {
    this.text = text; this.version = version; this.treeOnce = undefined;
    this.source = new Source(text, this.uri.split('/').at(-1));
    this.starts = [0, ...[...text.matchAll(LINE_END)].map(end => end.index + end[0].length)];
  }
  /** Changes as an editor sends them, one after another: with a range, or of the whole text. */
  change(changes, version) {
    for (const { range, text } of changes) {
      if (typeof text !== 'string') throw new Failure(INVALID_PARAMS, 'a change without a text');
      const all = range === undefined || range === null;
      const [start, end] = all ? [0, this.text.length] : [this.indexOf(range.start), this.indexOf(range.end)];
      this.setText(this.text.slice(0, start) + text + this.text.slice(end), version);
    }
  }

  /** The tree with its names; null where the text is no program. */
  get tree() {
    if (this.treeOnce === undefined) this.treeOnce = treeOf(this.source);
    return this.treeOnce;
  }

  // What lies outside of the text or in the midst of a pair of units is moved to what is next to it.
  indexOf({ line, character }) {
    if (!Number.isInteger(line) || !Number.isInteger(character)) throw new Failure(INVALID_PARAMS, 'this is no position');
    if (line < 0) return 0;
    if (line >= this.starts.length) return this.text.length;
    const end = this.endOfLine(line), index = Math.min(this.starts[line] + Math.max(0, character), end);
    return isInPair(this.text, index) ? index - 1 : index;
  }
  endOfLine(line) {
    const end = line + 1 < this.starts.length ? this.starts[line + 1] : this.text.length;
    return this.text.slice(this.starts[line], end).replace(/[\r\n]+$/, '').length + this.starts[line];
  }
  offsetOf(position) { return this.source.offset(this.indexOf(position)); }
  positionOf(offset) {
    const index = Math.min(this.source.index(offset), this.text.length);
    let low = 0, high = this.starts.length - 1;
    while (low < high) {
      const middle = (low + high + 1) >> 1;
      if (this.starts[middle] <= index) low = middle; else high = middle - 1;
    }
    return { line: low, character: index - this.starts[low] };
  }
  rangeOf({ a, z }) { return { start: this.positionOf(a), end: this.positionOf(z) }; }
  get wholeRange() { return { start: { line: 0, character: 0 }, end: this.positionOf(this.source.bytes.length) }; }
}

const isInPair = (text, index) => /^[\ud800-\udbff][\udc00-\udfff]$/.test(text.slice(Math.max(0, index - 1), index + 1));

function treeOf(source) {
  try {
    const program = parse(source);
    return { program, names: resolve(program) };
  } catch (problem) {
    if (problem instanceof SyntaxProblem || problem instanceof RangeError) return null;
    throw problem;
  }
}
