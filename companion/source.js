// A program's text, as bytes and as a string: places are pairs of byte offsets, as `pat` counts them (docs/LANGUAGE.md, "Places").

const encoder = new TextEncoder();
const decode = bytes => new TextDecoder('utf-8', { ignoreBOM: true }).decode(bytes);
const NEWLINE = 10, REPLACEMENT = '\ufffd', REPLACED = [0xef, 0xbf, 0xbd];

/** The first offset where bytes aren't UTF-8, or null: a replaced character that doesn't stand there. */
function firstInvalid(bytes, text) {
  for (let index = text.indexOf(REPLACEMENT); index >= 0; index = text.indexOf(REPLACEMENT, index + 1)) {
    const offset = encoder.encode(text.slice(0, index)).length;
    if (REPLACED.some((byte, at) => bytes[offset + at] !== byte)) return offset;
  }
  return null;
}

export class Source {
  /** `input` is a string or the bytes of one. */
  constructor(input, name = 'program') {
    this.name = name;
    this.bytes = typeof input === 'string' ? encoder.encode(input) : input;
    this.text = typeof input === 'string' ? input : decode(input);
    this.invalid = typeof input === 'string' ? null : firstInvalid(this.bytes, this.text);
    // Where each character is one byte, an offset is an index.
    this.plain = this.text.length === this.bytes.length;
    this.starts = [0];
    for (let at = 0; at < this.bytes.length; at++) if (this.bytes[at] === NEWLINE) this.starts.push(at + 1);
  }

  /** Line and column, both counted from 1; columns are characters. */
  position(offset) {
    let low = 0, high = this.starts.length - 1;
    while (low < high) {
      const middle = (low + high + 1) >> 1;
      if (this.starts[middle] <= offset) low = middle; else high = middle - 1;
    }
    return { line: low + 1, column: [...this.slice({ a: this.starts[low], z: offset })].length + 1 };
  }

  /** The text of a line, counted from 1, without what ends it. */
  line(number) {
    const end = number < this.starts.length ? this.starts[number] - 1 : this.bytes.length;
    return this.slice({ a: this.starts[number - 1], z: end }).replace(/\r$/, '');
  }

  slice({ a, z }) { return this.plain ? this.text.slice(a, z) : decode(this.bytes.subarray(a, z)); }

  /** The index in `text` of a byte offset, and back. */
  index(offset) { return this.plain ? offset : this.slice({ a: 0, z: offset }).length; }
  offset(index) { return this.plain ? index : encoder.encode(this.text.slice(0, index)).length; }
}

/** How many bytes a string has as UTF-8. */
export const sizeInBytes = text => encoder.encode(text).length;
