// The constraints of docs/INFERENCE.md, by backward typing, with one thing more: each leaf of a pattern knows the use that put it
// there. Only for programs that break no rule of use. It solves nothing; `pat` has the word on whether the constraints hold.

import { isMailbox } from './names.js';

const ONE = { k: '1' }, ZERO = { k: '0' };
const product = (left, right) => ({ k: '.', left, right });
const sum = (left, right) => ({ k: '+', left, right });

/**
 * {constraints, variables, opened}. A constraint is {left, right, place, why, who}, `who` being the binder that it is about, if any.
 * `variables` says of $1, $2, .. where they come from: {type}, or {place, binder}; `opened` maps types that lack a pattern to
 * variables. A leaf of a left side is a use; {how: 'unused', binder}; {how: 'branch', binder, a, z}, a branch that sends nothing; or
 * {how: 'taken', tag, a, z}, where a message was taken. A right side that is a variable has the use by which the mailbox goes there.
 */
export function constraintsOf(program, names) { return new Backward(program, names).all(); }

const functionsOf = program => program.declarations.filter(one => one.k === 'def');

/** The types of signatures whose pattern is left out, in the order of the variables of a derivation. */
export function openTypes(program) {
  return functionsOf(program)
    .flatMap(def => [...def.parameters.map(parameter => parameter.type), def.result])
    .filter(type => isMailbox(type) && !type.pattern);
}

/** What is left of a pattern once a message was taken; `leaf` stands where it was. */
export function residual(pattern, tag, leaf = null) {
  const rest = part => residual(part, tag, leaf);
  switch (pattern.k) {
    case 'tag': return pattern.tag !== tag ? ZERO : leaf ? { ...ONE, leaf } : ONE;
    case '+': return sum(rest(pattern.left), rest(pattern.right));
    case '.': return sum(product(rest(pattern.left), pattern.right), product(pattern.left, rest(pattern.right)));
    case '*': return product(rest(pattern.of), pattern);
    default: return ZERO;
  }
}

/** A pattern whose leaves all come from one use. */
function marked(pattern, leaf) {
  switch (pattern.k) {
    case 'tag': case '$': return { ...pattern, leaf };
    case '+': case '.': return { k: pattern.k, left: marked(pattern.left, leaf), right: marked(pattern.right, leaf) };
    case '*': return { k: '*', of: marked(pattern.of, leaf) };
    default: return pattern;
  }
}

function same(one, other) {
  if (one.k !== other.k) return false;
  switch (one.k) {
    case 'tag': return one.tag === other.tag;
    case '$': return one.variable === other.variable;
    case '*': return same(one.of, other.of);
    case '+': case '.': return same(one.left, other.left) && same(one.right, other.right);
    default: return true;
  }
}

/** The walk. A need is {mark, pattern}; what a term needs is a map from binders to needs. */
class Backward {
  constructor(program, names) {
    Object.assign(this, { program, names, constraints: [], opened: new Map(), variables: [] });
    this.uses = new Map(names.uses.map(use => [use.a, use]));
  }

  all() {
    for (const type of openTypes(this.program)) this.opened.set(type, this.fresh({ type }));
    for (const def of functionsOf(this.program)) this.definition(def);
    const { constraints, variables, opened } = this;
    return { constraints, variables, opened };
  }
  fresh(from) {
    this.variables.push(from);
    return { k: '$', variable: this.variables.length };
  }
  patternOf(type) { return type.pattern ?? this.opened.get(type); }
  list(left, right, { a, z }, why, who) { this.constraints.push({ left, right, place: { a, z }, why, who }); }

  // -------------------------------------------------------------------------------------------------------------- names

  definition(def) {
    const asked = isMailbox(def.result) ? { mark: def.result.mark, pattern: this.patternOf(def.result) } : null;
    const needs = this.term(def.body, asked);
    for (const binder of def.binders)
      if (isMailbox(binder.kind)) this.meet(binder, this.patternOf(binder.kind), needs.get(binder), 'parameter');
  }
  /** What a binder gives meets what is needed of it. */
  meet(binder, pattern, need, why) {
    const nothing = { ...ONE, leaf: { how: 'unused', binder } };
    if (binder.kind.mark === '!') this.list(need?.pattern ?? nothing, pattern, binder, why, binder);
    else if (need) this.list(pattern, need.pattern, binder, why, binder);
  }

  // -------------------------------------------------------------------------------------------------------------- terms

  term(term, asked) {
    const lets = [];
    for (; term.k === 'let'; term = term.body) lets.push(term);
    let needs = this.simple(term, asked);
    for (const one of lets.reverse()) needs = this.join(this.term(one.bound, this.askedOfBound(one, needs)), needs, one);
    return needs;
  }
  /** What the bound part of a `let` is asked for: what its body needs of the name. */
  askedOfBound({ binder }, needs) {
    if (!binder || !isMailbox(binder.kind)) return null;
    const asked = needs.get(binder) ?? { mark: '!', pattern: ONE };
    needs.delete(binder);
    return asked;
  }
  simple(term, asked) {
    switch (term.k) {
      case 'expression': return this.value(term, asked);
      case 'new':
        if (asked?.mark === '?') this.list(ONE, asked.pattern, term, 'new', null);
        return new Map();
      case 'send': return this.send(term);
      case 'call': return this.call(term, asked);
      case 'spawn': return this.term(term.body, null);
      case 'if': return this.branches([this.term(term.then, asked), this.term(term.other, asked)], term, [term.then, term.other]);
      case 'free': return new Map([[term.target, { mark: '?', pattern: ONE }]]);
      case 'guard': return this.guard(term, asked);
      default: return new Map();
    }
  }
  value(term, asked) {
    const use = term.value.k === 'variable' ? this.names.useAt(term) : null;
    if (use?.how !== 'value' || !asked) return new Map();
    return new Map([[use.binder, { mark: asked.mark, pattern: asked.mark === '!' ? marked(asked.pattern, use) : asked.pattern }]]);
  }
  send(term) {
    const tag = term.tag.text, message = this.program.interfaces.get(term.target.kind.interface).tags.get(tag);
    const pattern = { k: 'tag', tag, leaf: this.uses.get(term.mailbox.a) };
    return this.args(term.args, message.payloads, new Map([[term.target, { mark: '!', pattern }]]));
  }
  call(term, asked) {
    const { parameters, result } = this.program.functions.get(term.name.text);
    const needs = this.args(term.args, parameters.map(parameter => parameter.type), new Map());
    if (!isMailbox(result) || !asked) return needs;
    const given = this.patternOf(result);
    if (result.mark === '?') this.list(given, asked.pattern, term, 'call', null);
    else this.list(asked.pattern, given, term, 'call', null);
    return needs;
  }
  args(args, types, needs) {
    args.forEach((arg, index) => {
      const type = types[index];
      if (!isMailbox(type) || arg.k !== 'variable') return;
      const use = this.uses.get(arg.a);
      needs.set(use.binder, { mark: type.mark, pattern: marked(this.patternOf(type), use) });
    });
    return needs;
  }

  // ------------------------------------------------------------------------------------------------------------- guards

  guard(term, asked) {
    const clauses = term.clauses.filter(clause => clause.body);
    const needs = this.branches(clauses.map(clause => this.clause(clause, term, asked)), term, clauses);
    needs.set(term.target, { mark: '?', pattern: term.pattern });
    return needs;
  }
  clause(clause, guard, asked) {
    const needs = this.term(clause.body, asked);
    if (clause.k !== 'receive') return needs;
    const { text: tag, a, z } = clause.tag, rest = residual(guard.pattern, tag, { how: 'taken', tag, a, z });
    this.meet(clause.fromBinder, rest, needs.get(clause.fromBinder), 'from');
    for (const binder of clause.binders)
      if (isMailbox(binder.kind)) this.meet(binder, this.patternOf(binder.kind), needs.get(binder), 'payload');
    for (const binder of clause.own) needs.delete(binder);
    return needs;
  }

  // -------------------------------------------------------------------------------------------- what several parts need

  /** What both parts of a `let` need together. */
  join(first, second, place) {
    const both = new Map(second);
    for (const [binder, one] of first) {
      const other = both.get(binder);
      both.set(binder, other ? this.joined(one, other, place, binder) : one);
    }
    return both;
  }
  joined(one, other, place, binder) {
    if (one.mark === '!' && other.mark === '!') return { mark: '!', pattern: product(one.pattern, other.pattern) };
    const [sent, received] = one.mark === '!' ? [one, other] : [other, one], rest = this.fresh({ place, binder });
    this.list(product(sent.pattern, rest), received.pattern, place, 'let', binder);
    return { mark: '?', pattern: rest };
  }
  /** What is needed where one of several parts is taken. */
  branches(needs, place, parts) {
    const all = new Map();
    for (const binder of new Set(needs.flatMap(one => [...one.keys()]))) {
      const each = needs.map(one => one.get(binder)), sends = each.every(one => !one || one.mark === '!');
      all.set(binder, sends ? this.sentByOne(each, parts, binder) : this.receivedByAll(each, place, binder));
    }
    return all;
  }
  sentByOne(each, parts, binder) {
    const nothing = ({ a, z }) => ({ ...ONE, leaf: { how: 'branch', binder, a, z } });
    return { mark: '!', pattern: each.map((one, index) => one?.pattern ?? nothing(parts[index])).reduce(sum) };
  }
  receivedByAll(each, place, binder) {
    const received = each.filter(one => one?.mark === '?');
    if (received.every(one => same(one.pattern, received[0].pattern))) return received[0];
    const rest = this.fresh({ place, binder });
    for (const one of received) this.list(rest, one.pattern, place, 'branch', binder);
    return { mark: '?', pattern: rest };
  }
}
