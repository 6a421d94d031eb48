// Lays a program out anew. No token is added or taken away, so its canonical text stays the same; comments and single empty lines are
// kept. What was written on one line stays on one if it fits; what was written on several, where a line may begin, stays on several.

import { Gaps } from './gaps.js';
import { firstToken, lastToken } from './tree.js';

const WIDTH = 120, INDENT = 4;            // columns

/** The text of a tree from parse, laid out. */
export function format(program, { width = WIDTH, indent = INDENT } = {}) { return new Layout(program, width, indent).whole(); }

class Layout {
  constructor(program, width, indent) {
    Object.assign(this, { program, tokens: program.tokens, gaps: new Gaps(program), width, unit: ' '.repeat(indent) });
    this.lines = [];
    this.current = null;                  // the line that is written
    this.depth = 0;
    this.at = 0;                          // the token that comes next
    this.breaks = false;                  // it begins a line
    this.opened = false;                  // the last one was an opening brace
  }

  // --------------------------------------------------------------------------------------------------------------- room

  get column() {
    if (this.breaks || this.current === null) return this.depth * this.unit.length;
    return [...this.current].length + this.gaps.gap(this.at).length;
  }
  fits(first, last, tail = 0) { return this.column + this.gaps.size(first, last) + tail <= this.width; }
  inline(first, last, tail = 0) { return !this.gaps.wasBroken(first, last) && this.fits(first, last, tail); }

  // ------------------------------------------------------------------------------------------------------------ writing

  line() { this.breaks = true; }
  flush() {
    if (this.current !== null) this.lines.push(this.current.trimEnd());
    this.current = null;
  }
  /** Begins a line; an empty one before it where there was one, but not at the edge of a block. */
  begin(empty, depth) {
    this.flush();
    const last = this.lines.at(-1);
    if (empty && last !== undefined && last !== '' && !this.opened) this.lines.push('');
    this.current = this.unit.repeat(depth);
    this.opened = false;
  }
  /** Writes the tokens up to this one, with the comments before each. */
  emit(until) {
    for (; this.at <= until; this.at++) {
      const token = this.tokens[this.at], closes = token.type === 'mark' && token.text === '}';
      token.comments.forEach((comment, index) => this.comment(comment, index === 0, closes));
      if (token.type === 'end') return;
      this.place(token, token.comments.length > 0, closes);
      this.current += token.text;
      this.opened = token.type === 'mark' && token.text === '{';
    }
  }
  /** Where a token comes: on a new line, or behind its gap. */
  place(token, forced, closes) {
    if (!this.breaks && !forced && this.current !== null) this.current += this.gaps.gap(this.at);
    else {
      const further = forced && !this.breaks && !closes ? 1 : 0;
      this.begin(token.lines > 1 && !closes, this.depth + further);
      this.breaks = false;
    }
  }
  /** A comment behind code stays in its column, if there is room; another one has a line of its own. */
  comment({ text, a, lines }, first, closes) {
    if (lines > 0 || !first || this.current === null) this.begin(lines > 1, this.depth + (closes ? 1 : 0));
    else {
      const column = this.program.source.position(a).column - 1;
      this.current += ' '.repeat(Math.max(2, column - [...this.current].length));
    }
    this.current += text;
  }
  /** Writes the tokens up to this one on as many lines as they need, broken between their outermost pieces. */
  fill(until, tail = 0) {
    if (this.at > until) return;
    if (this.fits(this.at, until, tail)) return this.emit(until);
    const pieces = this.gaps.pieces(this.at, until), { depth } = this;
    for (const { first, last } of pieces) {
      const room = last === until ? tail : 0;
      if (first > pieces[0].first && !this.fits(first, last, room)) {
        this.depth = depth + 1;
        this.line();
      }
      if (pieces.length === 1 || this.fits(first, last, room)) this.emit(last); else this.fill(last, room);
    }
    this.depth = depth;
  }

  // ------------------------------------------------------------------------------------------------------- declarations

  whole() {
    for (const one of this.program.declarations) {
      this.line();
      if (one.k === 'interface') this.interface(one); else this.definition(one);
    }
    this.emit(this.tokens.length - 1);
    this.flush();
    return this.lines.join('\n') + '\n';
  }
  interface(one) {
    if (this.inline(one.first, one.last)) return this.emit(one.last);
    this.emit(one.name.last + 1);
    this.depth++;
    for (const message of one.messages) {
      this.line();
      this.fill(message.last + (this.tokens[message.last + 1].text === ',' ? 1 : 0));
    }
    this.depth--;
    this.line();
    this.emit(one.last);
  }
  definition(one) {
    const { name, parameters, result, open, body, last } = one;
    if (!parameters.length || this.inline(one.first, result.last, 2)) this.emit(open - 1);
    else this.head(name, parameters, result, open);
    this.block(open, body, last);
  }
  /** A head that is long, or was broken between its parameters. */
  head(name, parameters, result, open) {
    this.emit(name.last + 1);
    this.depth += 2;
    if (this.gaps.wasBroken(name.last, result.first)) for (const parameter of parameters) {
      if (this.gaps.startsLine(parameter.first)) this.line();
      this.fill(parameter.last + 1);
    }
    this.depth--;
    this.fill(open - 1, 2);
    this.depth--;
  }

  // -------------------------------------------------------------------------------------------------------------- terms

  /** Gives whether it took several lines. */
  block(open, body, close) {
    if (this.inline(open, close, 1)) {
      this.emit(close);
      return false;
    }
    this.emit(open);
    this.depth++;
    this.line();
    this.term(body);
    this.depth--;
    this.line();
    this.emit(close);
    return true;
  }
  term(term) {
    while (term.k === 'let' && !term.braces) {
      const next = term.body, start = firstToken(next), broken = this.statement(term, start - 1);
      if (broken || this.gaps.startsLine(start) || !this.inline(start, this.endOfStep(next))) this.line();
      term = next;
    }
    this.simple(term);
  }
  endOfStep(term) { return term.k === 'let' && !term.braces ? firstToken(term.body) - 1 : lastToken(term); }
  /** A `let` up to its `in`, or a step up to its `;`. Gives whether it took several lines. */
  statement(term, end) {
    if (this.inline(term.first, end)) {
      this.emit(end);
      return false;
    }
    if (term.name) this.emit(term.name.last + 1);
    const before = this.lines.length;
    this.simple(term.bound, this.gaps.size(end, end) + this.gaps.gap(end).length);
    this.emit(end);
    return this.lines.length > before;
  }
  /** `tail` columns are kept free behind it. */
  simple(term, tail = 0) {
    const first = firstToken(term), last = lastToken(term);
    if (this.inline(first, last, tail)) return this.emit(last);
    if (term.braces) return this.block(first, { ...term, braces: term.braces.inner }, last);
    switch (term.k) {
      case 'if': return this.choice(term, last);
      case 'spawn':
        this.emit(first);
        return this.block(first + 1, term.body, last);
      case 'guard': return this.guard(term, last);
      case 'let': return this.term(term);
      default: return this.fill(last, tail);
    }
  }
  choice(term, last) {
    const open = this.gaps.behind('{', term.test.last), closed = this.gaps.before('else', firstToken(term.other));
    this.fill(open - 1, 2);
    if (!this.block(open, term.then, closed - 1)) this.line();
    this.emit(closed);
    this.block(closed + 1, term.other, last);
  }
  guard(term, last) {
    this.fill(term.clauses[0].first - 1);
    this.depth++;
    for (const clause of term.clauses) {
      this.line();
      this.clause(clause);
    }
    this.depth--;
    this.line();
    this.emit(last);
  }
  clause(clause) {
    this.fill(clause.arrow ?? clause.last);
    if (!clause.body) return;
    const { body } = clause, first = firstToken(body), last = lastToken(body);
    if (!this.gaps.startsLine(first)) {
      if (this.inline(first, last)) return this.emit(last);
      if (body.k !== 'let' || body.braces) return this.simple(body);
    }
    this.depth++;
    this.line();
    this.term(body);
    this.depth--;
  }
}
