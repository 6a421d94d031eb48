// A program's tree to one Erlang module over the runtime (otp/src/pat_thread.erl). `pat check` has accepted the program: nothing
// is checked here. What has to be exact, and what `pat replay` finds out where it isn't:
// - how many local steps a thread takes before each shared act (docs/LANGUAGE.md, "Running": one into a let, one back to its
//   body, one for a call, one for an if);
// - how many names of each mailbox its control and frames have: where one more comes up (`dup`), and where one goes, in a local
//   step (`drop`) or as part of a shared act (`drop_now`).
// A thread may also begin in its middle: for its control and each of its frames there is a function then, which takes the values of
// what is free there.
import { resolve, isMailbox } from '../../companion/names.js';
import { Free } from './free.js';
import { Homes } from './homes.js';

const variable = binder => `V${binder.id}`;
const given = (binder, after) => `{${variable(binder)}, ${after.has(binder) ? 'stays' : 'goes'}}`;
const NONE = new Set();
const boxes = binders => [...binders].filter(binder => isMailbox(binder.kind));

/** Erlang statements under way. Of `pending` local steps the runtime isn't told yet; `behind`: no step since a shared act. */
class Body {
  constructor(pending, behind) { this.statements = []; this.pending = pending; this.behind = behind; }
  add(statement) { this.statements.push(statement); }
  step() { this.pending += 1; this.behind = false; }
  /** The pending steps, which the next call tells. */
  steps() { const { pending } = this; this.pending = 0; return pending; }
  flush() { if (this.pending) this.add(`pat_thread:local(${this.steps()})`); }
  act(call) { this.add(call); this.behind = true; return 'unit'; }
  drop(name) { this.add(`pat_thread:${this.behind && !this.pending ? 'drop_now' : 'drop'}(${name})`); }
  ending(value) { this.flush(); return [...this.statements, value].join(',\n'); }
}

export class Translation {
  constructor(program) {
    this.program = program;
    this.names = resolve(program);
    const binders = new Map(this.names.uses.map(use => [use.a, use.binder]));
    this.free = new Free(offset => binders.get(offset));
    this.binderAt = offset => binders.get(offset);
    this.homes = new Homes(this.names);
    this.functions = new Map([...program.functions.keys()].map((name, number) => [name, `f${number}`]));
    this.spawned = [];
    this.points = { control: new Map(), frame: new Map() };
    this.temporaries = 0;
  }

  /** The function that goes on at a term, and the binders whose values it takes. */
  control(term) { return this.point(this.points.control, term, 'c', this.free.of(term)); }
  /** The same behind what a `let` binds; it takes the value first. */
  frame(one) { return this.point(this.points.frame, one, 'k', [...this.free.of(one.body)].filter(binder => binder !== one.binder)); }
  point(points, term, letter, free) {
    if (!points.has(term)) points.set(term, { name: `${letter}${points.size}`, binders: [...free] });
    return points.get(term);
  }

  module(name) {
    const functions = [...this.program.functions.values()].map(def => this.definition(def));
    const main = this.entry('main', [], this.program.functions.get('main').body);
    const controls = [...this.points.control].map(([term, { name: point, binders }]) => this.entry(point, binders, term));
    const frames = [...this.points.frame].map(([one, { name: point, binders }]) => this.behind(point, one, binders));
    const threads = [];
    for (let at = 0; at < this.spawned.length; at++) threads.push(this.entry(`s${at}`, ...this.spawned[at]));
    const exported = ['main/0', ...this.spawned.map(([binders], at) => `s${at}/${binders.length}`),
      ...[...this.points.control.values()].map(({ name: point, binders }) => `${point}/${binders.length}`),
      ...[...this.points.frame.values()].map(({ name: point, binders }) => `${point}/${binders.length + 1}`)];
    return [`-module('${name}').`, `-export([${exported.join(', ')}]).`, '-compile([nowarn_unused_vars, nowarn_unused_function]).',
      ...functions, main, ...controls, ...frames, ...threads, ''].join('\n\n');
  }
  /** The step of the call is taken inside. */
  definition(def) {
    const body = new Body(1, false);
    for (const binder of boxes(def.binders)) if (!this.free.of(def.body).has(binder)) body.drop(variable(binder));
    return `${this.functions.get(def.name.text)}(${def.binders.map(variable).join(', ')}) ->\n${this.ending(def.body, body, true)}.`;
  }
  entry(name, binders, term) {
    return `${name}(${binders.map(variable).join(', ')}) ->\n${this.ending(term, new Body(0, false), true)}.`;
  }
  /** The step back to the body is taken inside. */
  behind(name, { bound, binder, body: rest }, binders) {
    const body = new Body(1, false), isUsed = binder && this.free.of(rest).has(binder);
    if (!isUsed && isMailbox(bound.kind)) body.drop('Value');
    const parameters = [isUsed ? variable(binder) : 'Value', ...binders.map(variable)];
    return `${name}(${parameters.join(', ')}) ->\n${this.ending(rest, body, true)}.`;
  }
  ending(term, body, isLast) { const value = this.term(term, body, isLast); return body.ending(value); }
  temporary(body, code) { const name = `T${this.temporaries++}`; body.add(`${name} = ${code}`); return name; }

  /** Puts what the term does into the body; gives the Erlang expression of its value. A last term's value is the function's. */
  term(term, body, isLast) {
    for (; term.k === 'let'; term = term.body) this.binding(term, body);
    switch (term.k) {
      case 'expression': return this.expression(term.value);
      case 'print': return body.act(`pat_thread:print(${body.steps()}, ${this.expression(term.value)})`);
      case 'new': return this.make(body, 'apart');
      case 'spawn': return this.spawn(term, body, NONE);
      case 'send': return this.send(term, body, NONE);
      case 'call': body.flush(); return this.value(`${this.functions.get(term.name.text)}(${this.list(term.args)})`, body, isLast);
      case 'if': return this.choice(term, body, isLast);
      case 'free': return this.guard(term, [{ k: 'free', body: null }], body, isLast);
      case 'guard': return this.guard(term, term.clauses.filter(clause => clause.k !== 'fail'), body, isLast);
    }
  }
  value(code, body, isLast) { return isLast ? code : this.temporary(body, code); }

  binding({ bound, binder, body: rest }, body) {
    const after = this.free.of(rest);
    body.step();
    const value = this.bound(bound, binder, after, body);
    body.step();
    if (binder && after.has(binder)) body.add(`${variable(binder)} = ${value}`);
    else if (isMailbox(bound.kind)) body.drop(value);
    else if (/\W/.test(value)) body.add(`_ = ${value}`);
  }
  /** Of the names that are needed afterwards as well there is one more from here on; an act that gives them away may keep them. */
  bound(term, binder, after, body) {
    switch (term.k) {
      case 'new': return this.make(body, binder && this.homes.isHere(binder) ? 'here' : 'apart');
      case 'spawn': return this.spawn(term, body, after);
      case 'send': return this.send(term, body, after);
    }
    for (const one of boxes(this.free.of(term))) if (after.has(one)) body.add(`pat_thread:dup(${variable(one)})`);
    return this.term(term, body, false);
  }
  make(body, home) {
    const name = this.temporary(body, `pat_thread:new(${body.steps()}, ${home})`);
    body.behind = true;
    return name;
  }
  spawn(term, body, after) {
    const free = [...this.free.of(term.body)], names = boxes(free), home = this.homes.adopted(term, names);
    const function_ = `s${this.spawned.push([free, term.body]) - 1}`;
    return body.act(`pat_thread:spawn(${body.steps()}, ?MODULE, ${function_}, [${free.map(variable).join(', ')}], `
      + `[${names.map(one => given(one, after)).join(', ')}], ${home ? variable(home) : 'none'})`);
  }
  send(term, body, after) {
    const sent = term.args.filter(arg => arg.k === 'variable').map(arg => this.binderAt(arg.a));
    const names = boxes(sent).map(one => given(one, after)), tag = this.tag(term.target, term.tag);
    return body.act(`pat_thread:send(${body.steps()}, ${given(term.target, after)}, ${tag}, [${this.list(term.args)}], `
      + `[${names.join(', ')}])`);
  }
  tag(binder, tag) { return [...this.program.interfaces.get(binder.kind.interface).tags.keys()].indexOf(tag.text); }

  choice(term, body, isLast) {
    const pending = body.steps() + 1, all = boxes(this.free.of(term));
    const branch = part => {
      const inner = new Body(pending, false);
      for (const one of all) if (!this.free.of(part).has(one)) inner.drop(variable(one));
      return this.ending(part, inner, isLast);
    };
    return this.value(`case ${this.expression(term.test)} of\ntrue ->\n${branch(term.then)};\nfalse ->\n${branch(term.other)}\nend`,
      body, isLast);
  }

  guard(term, clauses, body, isLast) {
    const all = boxes(term.k === 'free' ? [] : this.free.of(term)).filter(one => one !== term.target);
    const arms = clauses.map(clause => this.clause(term, clause, all, isLast));
    const mask = clauses.reduce((sum, clause) => clause.k === 'receive' ? sum + 2 ** this.tag(term.target, clause.tag) : sum, 0);
    const isFreed = clauses.some(clause => clause.k === 'free');
    const asked = `pat_thread:guard(${body.steps()}, ${variable(term.target)}, ${mask}, ${isFreed})`;
    return this.value(arms.length ? `case ${asked} of\n${arms.join(';\n')}\nend` : asked, body, isLast);
  }
  clause(term, clause, all, isLast) {
    if (!clause.body) return 'freed -> unit';
    const free = this.free.of(clause.body), body = new Body(0, true);
    const lost = all.filter(one => !free.has(one)).map(variable);
    if (clause.k === 'receive') {
      if (free.has(clause.fromBinder)) body.add(`${variable(clause.fromBinder)} = ${variable(term.target)}`);
      else lost.push(variable(term.target));
      lost.push(...boxes(clause.binders).filter(one => !free.has(one)).map(variable));
    }
    for (const one of lost) body.drop(one);
    const head = clause.k === 'free' ? 'freed'
      : `{${this.tag(term.target, clause.tag)}, [${clause.binders.map(variable).join(', ')}]}`;
    return `${head} ->\n${this.ending(clause.body, body, isLast)}`;
  }

  list(values) { return values.map(value => this.expression(value)).join(', '); }
  expression(value) {
    switch (value.k) {
      case 'variable': return variable(this.binderAt(value.a));
      case 'literal': return literal(value);
      case 'op': return this.operation(value.operator, this.expression(value.left), this.expression(value.right));
    }
  }
  operation(operator, left, right) {
    if (operator === '==') return `(${left} =:= ${right})`;
    if (operator === '<') return `(${left} < ${right})`;
    return `pat_int:wrap(${left} ${operator} ${right})`;
  }
}

function literal({ base, value }) {
  if (base === 'Unit') return 'unit';
  if (base === 'String') return `<<${[...Buffer.from(value)].join(',')}>>`;
  return String(value);
}
