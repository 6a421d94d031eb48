// What stands between two tokens of a program, and where a line may be broken: for the formatter.

import { firstToken, termsInOrder } from './tree.js';

const CLOSE = new Set([')', ']', ',', ';']);
// How tightly what stands before a break holds to what stands behind it: the loosest are broken first.
const IN_TERMS = { ',': 0, '==': 1, '<': 1, '+': 2, '-': 2, '*': 3 }, IN_PATTERNS = { ',': 0, '+': 1, '.': 2 }, TIGHTEST = 4;
const BRACKETS = { '(': 1, '[': 1, '{': 1, ')': -1, ']': -1, '}': -1 };
const textOf = token => token.type === 'string' ? '' : token.text;

export class Gaps {
  constructor(program) {
    this.tokens = program.tokens;
    this.inType = new Set();
    this.inPattern = new Set();
    this.guardColon = new Set();
    this.maybeFirst = new Set();          // tokens that the formatter may put first on a line; breaks elsewhere aren't looked at
    for (const one of program.declarations) if (one.k === 'interface') this.noteInterface(one); else this.noteDefinition(one);
  }

  // -------------------------------------------------------------------------------------------------- what stands where

  noteType({ first, last }) { for (let at = first + 1; at <= last; at++) this.inType.add(at); }
  noteInterface(one) {
    for (const message of one.messages) {
      message.payloads.forEach(type => this.noteType(type));
      this.maybeFirst.add(message.first);
    }
    this.maybeFirst.add(one.last);
  }
  noteDefinition(one) {
    for (const parameter of one.parameters) {
      this.noteType(parameter.type);
      this.maybeFirst.add(parameter.first);
    }
    this.noteType(one.result);
    this.begins(one.body);
    for (const term of termsInOrder(one.body)) this.noteTerm(term);
    this.maybeFirst.add(one.last);
  }
  begins(term) { this.maybeFirst.add(firstToken(term)); }
  noteTerm(term) {
    for (let braces = term.braces; braces; braces = braces.inner) this.maybeFirst.add(braces.first + 1).add(braces.last);
    switch (term.k) {
      case 'let': return this.begins(term.body);
      case 'if': return this.noteIf(term);
      case 'spawn':
        this.begins(term.body);
        return this.maybeFirst.add(term.last);
      case 'guard': return this.noteGuard(term);
    }
  }
  noteIf(term) {
    const word = this.before('else', firstToken(term.other));
    this.begins(term.then);
    this.begins(term.other);
    this.maybeFirst.add(word - 1).add(word).add(term.last);
  }
  noteGuard(term) {
    this.guardColon.add(term.mailbox.last + 1);
    for (let at = term.mailbox.last + 2; this.tokens[at].text !== '{'; at++) this.inPattern.add(at);
    for (const clause of term.clauses) {
      this.maybeFirst.add(clause.first);
      if (clause.body) this.begins(clause.body);
    }
    this.maybeFirst.add(term.last);
  }

  /** The nearest token with this text before a place, and behind it. */
  before(text, at) {
    for (at--; this.tokens[at].text !== text || this.tokens[at].type === 'string'; at--);
    return at;
  }
  behind(text, at) {
    for (at++; this.tokens[at].text !== text || this.tokens[at].type === 'string'; at++);
    return at;
  }

  // --------------------------------------------------------------------------------------------------------------- gaps

  /** What stands before a token that doesn't begin a line. */
  gap(at) {
    const before = this.tokens[at - 1], text = textOf(this.tokens[at]), prior = textOf(before);
    if (prior === '(' || prior === '[' || CLOSE.has(text)) return '';
    if (this.inType.has(at) && (['!', '?'].includes(text) || ['!', '?'].includes(prior))) return '';
    if (this.inType.has(at) || this.inPattern.has(at)) return text === '.' || prior === '.' || prior === '*' ? '' : ' ';
    if (text === '(') return before.type === 'name' || prior === 'print' || prior === 'free' ? '' : ' ';
    if (text === '[') return '';
    return text === ':' && !this.guardColon.has(at) ? '' : ' ';
  }
  /** The columns that tokens take on one line. */
  size(first, last) {
    let size = 0;
    for (let at = first; at <= last; at++) size += (at > first ? this.gap(at).length : 0) + [...this.tokens[at].text].length;
    return size;
  }
  startsLine(at) { return this.tokens[at].lines > 0 && this.maybeFirst.has(at) || this.tokens[at].comments.length > 0; }
  wasBroken(first, last) {
    for (let at = first + 1; at <= last; at++) if (this.startsLine(at)) return true;
    return false;
  }

  // ------------------------------------------------------------------------------------------------- lines that are long

  /** How tightly a token holds to the next; undefined where no line may be broken. */
  hold(at) { return (this.inType.has(at) || this.inPattern.has(at) ? IN_PATTERNS : IN_TERMS)[textOf(this.tokens[at])]; }
  /** Pieces of a run of tokens, {first, last}, between its loosest breaks; one piece where there is none. */
  pieces(first, last) {
    let depth = 0, loosest = Infinity, ends = [];
    for (let at = first; at < last; at++) {
      depth += BRACKETS[textOf(this.tokens[at])] ?? 0;
      const hold = depth * TIGHTEST + (this.hold(at) ?? Infinity);
      if (hold > loosest || hold === Infinity) continue;
      if (hold < loosest) ends = [];
      loosest = hold;
      ends.push(at);
    }
    return [...ends, last].map((end, index) => ({ first: index ? ends[index - 1] + 1 : first, last: end }));
  }
}
