// Erlang's external term format, as far as a configuration needs it. A string is a binary, a list an array.

export class Atom { constructor(text) { this.text = text; } }
export class Tuple { constructor(...parts) { this.parts = parts; } }

const VERSION = 131, SMALL_INTEGER = 97, INTEGER = 98, SMALL_BIG = 110, TUPLE = 104, NIL = 106, LIST = 108, BINARY = 109, ATOM = 119;
const BITS_OF_INTEGER = 32, BITS_OF_BIG = 64, FIRST_SIZE = 65536;

/** The bytes of a term. */
export function bytesOf(term) {
  const writer = new Writer();
  writer.byte(VERSION);
  writer.term(term);
  return writer.bytes.subarray(0, writer.size);
}

class Writer {
  constructor() { this.bytes = Buffer.alloc(FIRST_SIZE); this.size = 0; }
  /** Room for so many bytes more; where they begin. */
  room(count) {
    const at = this.size;
    this.size += count;
    if (this.size > this.bytes.length) this.bytes = Buffer.concat([this.bytes], 2 * this.size);
    return at;
  }
  byte(value) { const at = this.room(1); this.bytes[at] = value; }
  count(value) { const at = this.room(4); this.bytes.writeUInt32BE(value, at); }

  term(term) {
    if (typeof term === 'bigint' || typeof term === 'number') this.integer(BigInt(term));
    else if (typeof term === 'string') this.text(term);
    else if (Array.isArray(term)) this.list(term);
    else if (term instanceof Tuple) { this.byte(TUPLE); this.byte(term.parts.length); term.parts.forEach(part => this.term(part)); }
    else if (term instanceof Atom) this.atom(term);
    else throw new Error(`no term: ${term}`);
  }
  integer(value) {
    if (value >= 0n && value < 256n) { this.byte(SMALL_INTEGER); this.byte(Number(value)); return; }
    if (BigInt.asIntN(BITS_OF_INTEGER, value) === value) {
      this.byte(INTEGER);
      const at = this.room(4);
      this.bytes.writeInt32BE(Number(value), at);
      return;
    }
    this.byte(SMALL_BIG); this.byte(BITS_OF_BIG / 8); this.byte(value < 0n ? 1 : 0);
    const at = this.room(BITS_OF_BIG / 8);
    this.bytes.writeBigUInt64LE(value < 0n ? -value : value, at);
  }
  atom({ text }) {
    this.byte(ATOM); this.byte(text.length);
    const at = this.room(text.length);
    this.bytes.write(text, at);
  }
  text(text) {
    const bytes = Buffer.from(text);
    this.byte(BINARY); this.count(bytes.length);
    const at = this.room(bytes.length);
    bytes.copy(this.bytes, at);
  }
  list(parts) {
    if (parts.length) { this.byte(LIST); this.count(parts.length); parts.forEach(part => this.term(part)); }
    this.byte(NIL);
  }
}
