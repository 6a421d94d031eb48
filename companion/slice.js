// A program in which numbers and texts that decide nothing are constants. What decides is what an `if` tests, and, where one asks for
// the output, what is printed; and all that flows there, by names, arguments, messages and results. Everything else that a program does
// is the same step by step, so the same ends are reached by the same histories; but many configurations become one.
// The tree that comes out has a term for each one of the program's, in the same order and at the same places.

import { resolve } from './names.js';

const CONSTANTS = { Int: 0n, Bool: false, String: '', Unit: null };
const constant = ({ a, z }, base) => ({ k: 'literal', base, value: CONSTANTS[base], a, z });
const parameterOf = ({ name }, index) => `parameter ${name.text} ${index}`;
const isBase = kind => kind != null && kind.base !== null && kind.base in CONSTANTS;

export function slice(program, { prints = false } = {}) {
  const flows = new Flows(program, resolve(program));
  for (const one of program.functions.values()) flows.term(one.body, `result ${one.name.text}`);
  const deciding = flows.closed([...flows.tested, ...(prints ? flows.printed : [])]);
  const slicer = new Slicer(flows, deciding, prints), functions = new Map();
  for (const [name, one] of program.functions) {
    functions.set(name, { ...one, body: slicer.term(one.body, `result ${name}`, isBase(one.result) ? one.result.base : null) });
  }
  return { ...program, functions };
}

/** Where a value may flow. Points are binders, and texts for a parameter, a place in a message, and a function's result. */
class Flows {
  constructor(program, names) {
    this.program = program; this.tested = []; this.printed = []; this.into = new Map();
    this.binders = new Map(names.uses.map(use => [use.a, use.binder]));
    for (const one of program.functions.values()) {
      (one.binders ?? []).forEach((binder, index) => this.flow([parameterOf(one, index)], binder));
    }
  }
  flow(points, target) {
    if (!this.into.has(target)) this.into.set(target, []);
    this.into.get(target).push(...points);
  }
  variablesOf(expression) {
    const found = [], open = [expression];
    while (open.length) {
      const one = open.pop();
      if (one.k === 'variable') found.push(this.binders.get(one.a));
      if (one.k === 'op') open.push(one.left, one.right);
    }
    return found;
  }
  /** All points from which something flows to `points`. */
  closed(points) {
    const all = new Set(points);
    for (const point of all) (this.into.get(point) ?? []).forEach(from => all.add(from));
    return all;
  }
  placeIn(term, index) { return `message ${term.target?.kind.interface} ${term.tag.text} ${index}`; }

  /** `target` is the point to which the term's value goes. */
  term(term, target) {
    for (; term.k === 'let'; term = term.body) this.term(term.bound, term.binder ?? 'nowhere');
    switch (term.k) {
      case 'expression': this.flow(this.variablesOf(term.value), target); break;
      case 'print': this.printed.push(...this.variablesOf(term.value)); break;
      case 'spawn': this.term(term.body, 'nowhere'); break;
      case 'send': term.args.forEach((arg, index) => this.flow(this.variablesOf(arg), this.placeIn(term, index))); break;
      case 'call':
        term.args.forEach((arg, index) => this.flow(this.variablesOf(arg), parameterOf(term, index)));
        this.flow([`result ${term.name.text}`], target); break;
      case 'if': this.tested.push(...this.variablesOf(term.test)); this.term(term.then, target); this.term(term.other, target); break;
      case 'guard': term.clauses.filter(clause => clause.body).forEach(clause => this.clause(term, clause, target));
    }
  }
  clause(guard, clause, target) {
    const received = { target: guard.target, tag: clause.tag };
    (clause.binders ?? []).forEach((binder, index) => this.flow([this.placeIn(received, index)], binder));
    this.term(clause.body, target);
  }
}

class Slicer {
  constructor(flows, deciding, prints) { Object.assign(this, { flows, deciding, prints }); }

  expression(expression, point, base) { return base === null || this.deciding.has(point) ? expression : constant(expression, base); }

  /** `base` is the kind of the term's value where it is no mailbox, else null. */
  term(term, target, base) {
    const chain = [];
    for (; term.k === 'let'; term = term.body) chain.push(term);
    let sliced = this.simple(term, target, base);
    for (const one of chain.reverse()) {
      const kind = one.binder?.kind;
      sliced = { ...one, bound: this.term(one.bound, one.binder ?? 'nowhere', isBase(kind) ? kind.base : null), body: sliced };
    }
    return sliced;
  }
  simple(term, target, base) {
    switch (term.k) {
      case 'expression': return { ...term, value: this.expression(term.value, target, base) };
      case 'print': return this.prints ? { ...term } : { ...term, value: constant(term.value, 'Int') };
      case 'spawn': return { ...term, body: this.term(term.body, 'nowhere', null) };
      case 'send': return { ...term, args: this.args(term.args, this.payloads(term), index => this.flows.placeIn(term, index)) };
      case 'call': return { ...term, args: this.args(term.args, this.parameters(term), index => parameterOf(term, index)) };
      case 'if': return { ...term, then: this.term(term.then, target, base), other: this.term(term.other, target, base) };
      case 'guard': return { ...term, clauses: term.clauses.map(clause =>
        clause.body ? { ...clause, body: this.term(clause.body, target, base) } : clause) };
      default: return { ...term };
    }
  }
  args(args, types, pointOf) {
    return args.map((arg, index) => this.expression(arg, pointOf(index), isBase(types[index]) ? types[index].base : null));
  }
  payloads(term) { return this.flows.program.interfaces.get(term.target.kind.interface).tags.get(term.tag.text).payloads; }
  parameters(term) { return this.flows.program.functions.get(term.name.text).parameters.map(parameter => parameter.type); }
}
