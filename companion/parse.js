// Tokens to tree (docs/LANGUAGE.md, "Grammar"). It reads what `pat print` reads; what is refused there is refused here with what could
// have stood at the place. Each node has its place {a, z} in bytes, and {first, last}, the numbers of its outermost tokens.

import { Source } from './source.js';
import { tokenize } from './tokens.js';

export { Source } from './source.js';
export { RESERVED, tokenize } from './tokens.js';
export { spellPattern, spellType, partsOf, termsInOrder } from './tree.js';

const BASES = new Set(['Unit', 'Bool', 'Int', 'String']);

export class SyntaxProblem extends Error {
  /** `expected` lists what could have stood at `offset`, by words for people. */
  constructor(offset, expected) {
    super(`at ${offset}: ${expected.join(', ')} expected`);
    this.offset = offset;
    this.expected = expected;
  }
}

/** The tree of a program. Throws a SyntaxProblem where the text is none. */
export function parse(source) {
  if (!(source instanceof Source)) source = new Source(source);
  const { tokens, bad } = tokenize(source);
  if (bad !== null) throw new SyntaxProblem(bad, []);
  return new Parser(source, tokens).program();
}

// In verdicts and derivations `$1` is a variable, which no token begins with.
const VARIABLE = '_variable_';

/** The tree of a pattern as verdicts and derivations spell it. */
export function parsePattern(text) {
  const source = new Source(text.replace(/\$/g, VARIABLE));
  return new Parser(source, tokenize(source).tokens).pattern();
}

/** The first of each name: a second one is no program, but can be explained. */
function tableOf(nodes) {
  const table = new Map();
  for (const one of nodes) if (!table.has(one.name.text)) table.set(one.name.text, one);
  return table;
}

class Parser {
  constructor(source, tokens) {
    this.source = source;
    this.tokens = tokens;
    this.at = 0;
    this.expected = [];                   // the texts that were asked for at this token
  }

  // ------------------------------------------------------------------------------------------------------------- tokens

  get token() { return this.tokens[this.at]; }
  next() {
    this.expected.length = 0;
    return this.tokens[this.at++];
  }
  is(text) {
    this.expected.push(text);
    return this.token.text === text && this.token.type !== 'string';
  }
  take(text) { return this.is(text) ? this.next() : null; }
  want(text) { return this.take(text) ?? this.fail(); }
  fail(...more) {
    const texts = [...new Set(this.expected)].map(text => '`' + text + '`');
    throw new SyntaxProblem(this.token.a, [...texts, ...more]);
  }
  name(what) {
    if (this.token.type !== 'name') this.fail(what);
    const number = this.at, { text, a, z } = this.next();
    return { k: 'name', text, a, z, first: number, last: number };
  }
  /** Closes a node that began at token `first`. */
  node(k, first, rest) {
    const last = this.at - 1;
    return { k, ...rest, a: this.tokens[first].a, z: this.tokens[last].z, first, last };
  }
  list(close, item) {
    const items = [];
    if (this.take(close)) return items;
    do items.push(item()); while (this.take(','));
    this.want(close);
    return items;
  }
  within(open, inside, close) {
    this.want(open);
    const found = inside();
    this.want(close);
    return found;
  }

  // ------------------------------------------------------------------------------------------------------- declarations

  program() {
    const declarations = [];
    do declarations.push(this.declaration()); while (this.token.type !== 'end');
    const interfaces = tableOf(declarations.filter(one => one.k === 'interface'));
    const functions = tableOf(declarations.filter(one => one.k === 'def'));
    return { k: 'program', source: this.source, tokens: this.tokens, declarations, interfaces, functions };
  }
  declaration() {
    if (this.is('interface')) return this.interface();
    return this.is('def') ? this.definition() : this.fail();
  }
  interface() {
    const first = this.at;
    this.next();
    const name = this.name('a name'), messages = [];
    this.want('{');
    do messages.push(this.message()); while (this.take(','));
    this.want('}');
    return this.node('interface', first, { name, messages, tags: tableOf(messages) });
  }
  message() {
    const first = this.at, name = this.name('a message');
    this.want('(');
    const payloads = this.list(')', () => this.type(true));
    return this.node('message', first, { name, payloads });
  }
  definition() {
    const first = this.at;
    this.next();
    const name = this.name('a name');
    this.want('(');
    const parameters = this.list(')', () => this.parameter());
    this.want(':');
    const result = this.type(false), open = this.at, body = this.block();
    return this.node('def', first, { name, parameters, result, body, open });
  }
  parameter() {
    const first = this.at, name = this.name('a parameter');
    this.want(':');
    const type = this.type(false);
    return this.node('parameter', first, { name, type });
  }
  /** A payload has its pattern written; a signature may leave it out. */
  type(payload) {
    const first = this.at;
    if (this.token.type === 'word' && BASES.has(this.token.text)) {
      const base = this.next().text;
      return this.node('type', first, { base });
    }
    const of = this.name('a type'), mark = (this.take('!') ?? this.take('?') ?? this.fail()).text;
    const pattern = payload || this.beginsFactor() ? this.pattern() : null;
    return this.node('type', first, { base: null, interface: of.text, of, mark, pattern });
  }

  // ----------------------------------------------------------------------------------------------------------- patterns

  beginsFactor() { return this.is('*') || this.is('(') || this.token.type === 'int' || this.token.type === 'name'; }
  pattern() { return this.chain('+', () => this.chain('.', () => this.factor())); }
  chain(operator, part) {
    const first = this.at;
    let left = part();
    while (this.take(operator)) {
      const right = part();
      left = this.node(operator, first, { left, right });
    }
    return left;
  }
  factor() {
    const first = this.at;
    if (this.take('*')) {
      const of = this.factor();
      return this.node('*', first, { of });
    }
    if (this.is('(')) return this.within('(', () => this.pattern(), ')');
    if (this.token.type === 'int') return this.number(first);
    if (this.token.type !== 'name') this.fail('a pattern');
    const tag = this.next().text;
    if (tag.startsWith(VARIABLE)) return this.node('$', first, { variable: Number(tag.slice(VARIABLE.length)) });
    return this.node('tag', first, { tag });
  }
  number(first) {
    const value = Number(this.token.text);
    if (value > 1) this.fail('0', '1');
    this.next();
    return this.node(value ? '1' : '0', first, {});
  }

  // -------------------------------------------------------------------------------------------------------------- terms

  block() { return this.within('{', () => this.term(), '}'); }
  /** Lets and sequences in a row are read by a loop: there may be 4,095. */
  term() {
    const steps = [];
    for (;;) {
      const first = this.at;
      if (this.take('let')) {
        const name = this.name('a name');
        steps.push({ name, bound: this.within('=', () => this.simple(), 'in'), first });
        continue;
      }
      const part = this.simple();
      if (!this.take(';')) return this.chainOfLets(steps, part);
      steps.push({ name: null, bound: part, first });
    }
  }
  chainOfLets(steps, last) {
    let body = last;
    for (const { name, bound, first } of steps.reverse())
      body = { k: 'let', name, bound, body, a: this.tokens[first].a, z: body.z, first, last: body.last };
    return body;
  }
  simple() {
    const first = this.at, { type, text } = this.token;
    if (type === 'word' && Object.hasOwn(WORDS, text)) {
      this.next();
      return this.node(text, first, WORDS[text](this));
    }
    if (type === 'mark' && text === '{') {
      const inside = this.block();
      return { ...inside, braces: { first, last: this.at - 1, inner: inside.braces } };
    }
    const after = type === 'name' && this.tokens[this.at + 1];
    if (after?.type === 'mark' && after.text === '!') return this.send(first);
    if (after?.type === 'mark' && after.text === '(') return this.call(first);
    const value = this.expression();
    return { k: 'expression', value, a: value.a, z: value.z, first: value.first, last: value.last };
  }
  send(first) {
    const mailbox = this.name();
    this.next();
    const tag = this.name('a message');
    this.want('(');
    const args = this.list(')', () => this.expression());
    return this.node('send', first, { mailbox, tag, args });
  }
  call(first) {
    const name = this.name();
    this.next();
    const args = this.list(')', () => this.expression());
    return this.node('call', first, { name, args });
  }
  guard() {
    const mailbox = this.name('a mailbox');
    this.want(':');
    const pattern = this.pattern(), clauses = [];
    this.want('{');
    do clauses.push(this.clause()); while (!this.take('}'));
    return { mailbox, pattern, clauses };
  }
  /** A clause is placed at its first word. */
  clause() {
    const first = this.at, { a, z } = this.token, place = () => ({ a, z, first, last: this.at - 1 });
    if (this.take('fail')) return { k: 'fail', ...place() };
    if (this.take('free')) return { k: 'free', ...this.clauseBody(), ...place() };
    if (!this.take('receive')) this.fail('a clause');
    const tag = this.name('a message');
    this.want('(');
    const names = this.list(')', () => this.name('a name'));
    this.want('from');
    const from = this.name('a name');
    return { k: 'receive', tag, names, from, ...this.clauseBody(), ...place() };
  }
  clauseBody() {
    const arrow = this.at;
    this.want('->');
    return { arrow, body: this.term() };
  }

  // -------------------------------------------------------------------------------------------------------- expressions

  expression() {
    const first = this.at, left = this.sum();
    for (const operator of ['==', '<']) if (this.take(operator)) return this.operation(first, operator, left, this.sum());
    return left;
  }
  sum() { return this.leftward(['+', '-'], () => this.times()); }
  times() { return this.leftward(['*'], () => this.atom()); }
  leftward(operators, part) {
    const first = this.at;
    let left = part();
    for (;;) {
      const operator = operators.find(one => this.is(one));
      if (!operator) return left;
      this.next();
      left = this.operation(first, operator, left, part());
    }
  }
  operation(first, operator, left, right) { return this.node('op', first, { operator, left, right }); }
  atom() {
    const first = this.at, { type, text } = this.token;
    const literal = (base, value) => {
      this.next();
      return this.node('literal', first, { base, value });
    };
    if (type === 'int') return literal('Int', BigInt(text));
    if (type === 'string') return literal('String', text.slice(1, -1).replace(/\\(.)/gu, '$1'));
    if (type === 'word' && (text === 'true' || text === 'false')) return literal('Bool', text === 'true');
    if (type === 'name') {
      this.next();
      return this.node('variable', first, { name: text });
    }
    if (!this.take('(')) return this.fail('an expression');
    if (this.take(')')) return this.node('literal', first, { base: 'Unit', value: null });
    const inside = this.expression();
    this.want(')');
    return inside;
  }
}

/** What stands behind the words that begin a term: the parts of its node. */
const WORDS = {
  if(parser) {
    const test = parser.expression(), then = parser.block();
    parser.want('else');
    return { test, then, other: parser.block() };
  },
  print: parser => ({ value: parser.within('(', () => parser.expression(), ')') }),
  new: parser => ({ of: parser.within('[', () => parser.name('an interface'), ']') }),
  spawn: parser => ({ body: parser.block() }),
  free: parser => ({ mailbox: parser.within('(', () => parser.name('a mailbox'), ')') }),
  guard: parser => parser.guard(),
};
