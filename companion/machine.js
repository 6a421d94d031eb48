// The machine of docs/LANGUAGE.md, "Running", over the tree of parse.js: threads, mailboxes, messages, and what each step does.
// step.js tells a history with it, explore.js searches with it. It decides nothing: whether a history is one, `pat replay` says.

import { isMailbox } from './names.js';

const UNIT = null;
const wrap = value => BigInt.asIntN(64, value);

/** A mailbox; `name` is the `let` that it was made for. `freed` is for readers of a whole run. */
export class Mailbox {
  constructor(number, by, declared, name) { Object.assign(this, { number, by, interface: declared, name, freed: false }); }
}

/** A step that isn't there; the message says why, for people. */
export class Refusal extends Error {}
const refuse = reason => { throw new Refusal(reason); };

// ---------------------------------------------------------------------------------------------------------------- values

const bind = (values, name, value) => ({ name, value, up: values });
export function look(values, name) {
  for (let one = values; one; one = one.up) if (one.name === name) return one.value;
  throw new Error(`no value for ${name}`);
}
function evaluate(expression, values) {
  if (expression.k === 'literal') return expression.value;
  if (expression.k === 'variable') return look(values, expression.name);
  const left = evaluate(expression.left, values), right = evaluate(expression.right, values);
  switch (expression.operator) {
    case '+': return wrap(left + right);
    case '-': return wrap(left - right);
    case '*': return wrap(left * right);
    case '<': return left < right;
    default: return left === right;
  }
}
/** A value as a program writes it; `nameOf` calls mailboxes. */
export function sayValue(value, nameOf) {
  if (value instanceof Mailbox) return nameOf(value);
  return value === UNIT ? '()' : typeof value === 'string' ? `"${value}"` : String(value);
}

// ------------------------------------------------------------------------------------------------------------ free names

const freeOf = new WeakMap();

/** The names that a term uses and doesn't bind. */
export function freeNames(term) {
  const known = freeOf.get(term);
  if (known) return known;
  const chain = [];
  let last = term;
  for (; last.k === 'let'; last = last.body) chain.push(last);
  let free = new Set(freeOf.get(last) ?? namesOfSimple(last));
  freeOf.set(last, [...free]);
  for (const one of chain.reverse()) {
    if (one.name) free.delete(one.name.text);
    freeNames(one.bound).forEach(name => free.add(name));
    freeOf.set(one, [...free]);
  }
  return freeOf.get(term);
}
function namesOfSimple(term) {
  switch (term.k) {
    case 'expression': case 'print': return namesOfExpressions([term.value]);
    case 'free': return [term.mailbox.text];
    case 'send': return [term.mailbox.text, ...namesOfExpressions(term.args)];
    case 'call': return namesOfExpressions(term.args);
    case 'spawn': return freeNames(term.body);
    case 'if': return [...namesOfExpressions([term.test]), ...freeNames(term.then), ...freeNames(term.other)];
    case 'guard': return [term.mailbox.text, ...term.clauses.filter(clause => clause.body).flatMap(namesOfClause)];
    default: return [];
  }
}
function namesOfClause(clause) {
  if (clause.k === 'free') return freeNames(clause.body);
  const bound = new Set([clause.from.text, ...clause.names.map(name => name.text)]);
  return freeNames(clause.body).filter(name => !bound.has(name));
}
/** The values of a term's free names but one, from the innermost binding outwards: an order that the term's scope fixes. */
function forEachFree(term, but, values, see) {
  const wanted = new Set(freeNames(term));
  if (but !== null) wanted.delete(but);
  for (let one = values; one && wanted.size; one = one.up) if (wanted.delete(one.name)) see(one.value);
}
function namesOfExpressions(expressions) {
  const names = [], open = [...expressions];
  while (open.length) {
    const one = open.pop();
    if (one.k === 'variable') names.push(one.name);
    if (one.k === 'op') open.push(one.left, one.right);
  }
  return names;
}

// --------------------------------------------------------------------------------------------------------------- threads

/**
 * A thread: at `control`, a term, with `values`; or at a value, where `control` is null. `frames` are linked, the topmost first.
 * `name` is the function that it was spawned with, `own` the mailbox that it got to receive from, `state` the function that it is in.
 */
export class Thread {
  constructor(number, name, own, control, values) {
    Object.assign(this, { number, name, own, state: null, control, values, value: UNIT, frames: null, heldOnce: null });
  }
  copy() { return Object.assign(Object.create(Thread.prototype), this); }
  at(value) { this.control = null; this.value = value; this.values = null; this.heldOnce = null; }
  go(control, values) { this.control = control; this.values = values; this.heldOnce = null; }

  /** One local step; false where there is none. */
  stepLocally(program) {
    const { control, values } = this;
    switch (control?.k) {
      case 'let':
        this.frames = { name: control.name?.text ?? null, body: control.body, values, state: this.state, below: this.frames };
        this.go(control.bound, values); return true;
      case undefined: return this.popFrame(this.value);
      case 'expression': return this.frames !== null && this.popFrame(evaluate(control.value, values));
      case 'call': this.call(program.functions.get(control.name.text), control.args); return true;
      case 'if': this.go(evaluate(control.test, values) ? control.then : control.other, values); return true;
      default: return false;
    }
  }
  popFrame(value) {
    const frame = this.frames;
    if (!frame) return false;
    this.frames = frame.below; this.state = frame.state;
    this.go(frame.body, frame.name ? bind(frame.values, frame.name, value) : frame.values);
    return true;
  }
  call(callee, args) {
    let bound = null;
    callee.parameters.forEach((parameter, index) => { bound = bind(bound, parameter.name.text, evaluate(args[index], this.values)); });
    this.state = callee.name.text;
    this.go(callee.body, bound);
  }
  /** All local steps, at most `most`; gives their number. */
  settle(program, most) {
    let count = 0;
    while (count < most && this.stepLocally(program)) count++;
    return count;
  }
  /** What comes next for all to see: 'new', 'send', 'spawn', 'print', 'guard', 'free', 'end'; null where a local step does. */
  get next() {
    const kind = this.control?.k ?? 'value';
    if (kind === 'value' || kind === 'expression') return this.frames ? null : 'end';
    return ['let', 'call', 'if'].includes(kind) ? null : kind;
  }
  valueOf(name) { return look(this.values, name); }
  evaluate(expression) { return evaluate(expression, this.values); }
  /** The mailbox that a guard, a `free` or a send at the control is about. */
  get target() { return look(this.values, this.control.mailbox.text); }

  /** The values that the rest of the thread uses, in an order that its terms fix: the control's, then those of the frames. */
  forEachValue(see) {
    if (this.control) forEachFree(this.control, null, this.values, see); else see(this.value);
    for (let frame = this.frames; frame; frame = frame.below) forEachFree(frame.body, frame.name, frame.values, see);
  }
  /** The mailboxes among them. */
  get held() {
    if (!this.heldOnce) {
      const held = this.heldOnce = new Set();
      this.forEachValue(value => { if (value instanceof Mailbox) held.add(value); });
    }
    return this.heldOnce;
  }
}

// -------------------------------------------------------------------------------------------------------- configurations

/** Threads, pending messages {number, mailbox, tag, args, by}, live mailboxes, output, and the number that each next one gets. */
export class Configuration {
  constructor(program) {
    this.program = program;
    this.threads = new Map([[0, new Thread(0, 'main', null, program.functions.get('main').body, null)]]);
    this.threads.get(0).state = 'main';
    this.messages = new Map(); this.live = new Set(); this.output = null;
    this.made = 0; this.sent = 0; this.spawned = 1;
  }
  /** A copy in which thread `number` may take a step; the others are shared with this one. */
  fork(number) {
    const other = Object.assign(Object.create(Configuration.prototype), this);
    other.threads = new Map(this.threads); other.messages = new Map(this.messages); other.live = new Set(this.live);
    other.threads.set(number, this.threads.get(number).copy());
    return other;
  }
  /** The printed lines; they are linked, the last one first. */
  get lines() {
    const lines = [];
    for (let one = this.output; one; one = one.before) lines.push(one.text);
    return lines.reverse();
  }
  pendingIn(mailbox) { return [...this.messages.values()].filter(message => message.mailbox === mailbox); }
  /** The clause by which a thread at a guard takes a message. */
  clauseFor(thread, message) {
    return thread.control.clauses.find(clause => clause.k === 'receive' && clause.tag.text === message.tag);
  }
  /** The pending messages that a thread at a guard may take. */
  receivable(thread) {
    const mailbox = thread.target;
    return this.pendingIn(mailbox).filter(message => this.clauseFor(thread, message));
  }
  /** Why a thread at a guard or a `free` can't free its mailbox; null where it can. */
  whyNotFree(thread) {
    const mailbox = thread.target, { control } = thread;
    if (control.k === 'guard' && !control.clauses.some(clause => clause.k === 'free')) return 'this guard has no free clause';
    if (!this.live.has(mailbox)) return 'the mailbox was freed before';
    for (const message of this.messages.values()) {
      if (message.mailbox === mailbox) return 'a message is in the mailbox, so it can\'t be freed';
      if (message.args.includes(mailbox)) return 'a message brings this mailbox to somebody, so it can\'t be freed';
    }
    for (const other of this.threads.values()) {
      if (other !== thread && other.held.has(mailbox)) return `thread ${other.number} knows the mailbox too, so it can't be freed`;
    }
    return null;
  }

  /**
   * Takes a thread's shared step. Gives what it was: `mailbox`, `message`, `child` (a thread), `text`. Refuses where it isn't the
   * thread's next, or can't be taken. `message` is the one to receive.
   */
  take(thread, act, message = null) {
    const wanted = { receive: ['guard'], free: ['guard', 'free'] }[act] ?? [act];
    if (!wanted.includes(thread.next)) refuse(`${act} isn't what thread ${thread.number} does here`);
    return this[act](thread, message);
  }
  new(thread) {
    const mailbox = new Mailbox(this.made++, thread.number, thread.control.of.text, thread.frames?.name ?? null);
    this.live.add(mailbox); thread.at(mailbox);
    return { mailbox };
  }
  send(thread) {
    const { control } = thread, mailbox = thread.target, args = control.args.map(arg => thread.evaluate(arg));
    const message = { number: this.sent++, mailbox, tag: control.tag.text, args, by: thread.number };
    this.messages.set(message.number, message); thread.at(UNIT);
    return { mailbox, message };
  }
  spawn(thread) {
    const { body } = thread.control, { name, own } = whoIs(this.program, body, thread.values);
    const child = new Thread(this.spawned++, name, own, body, thread.values);
    this.threads.set(child.number, child); thread.at(UNIT);
    return { child };
  }
  print(thread) {
    const text = String(thread.evaluate(thread.control.value));
    this.output = { text, before: this.output }; thread.at(UNIT);
    return { text };
  }
  end(thread) { this.threads.delete(thread.number); return {}; }
  free(thread) {
    const why = this.whyNotFree(thread), mailbox = thread.target, { control } = thread;
    if (why) refuse(why);
    this.live.delete(mailbox);
    if (control.k === 'free') thread.at(UNIT);
    else thread.go(control.clauses.find(clause => clause.k === 'free').body, thread.values);
    return { mailbox };
  }
  receive(thread, message) {
    const mailbox = thread.target;
    if (message.mailbox !== mailbox) refuse(`message ${message.number} lies in another mailbox`);
    const clause = this.clauseFor(thread, message) ?? refuse(`the guard has no clause for ${message.tag}`);
    this.messages.delete(message.number);
    let bound = thread.values;
    clause.names.forEach((name, index) => { bound = bind(bound, name.text, message.args[index]); });
    thread.go(clause.body, bind(bound, clause.from.text, mailbox));
    return { mailbox, message };
  }
}

/** A thread is called as the function that it is spawned with, and the mailbox that it gets to receive from. */
function whoIs(program, body, values) {
  const bound = new Set();
  let last = body;
  for (; last.k === 'let'; last = last.body) if (last.name) bound.add(last.name.text);
  if (last.k !== 'call') return { name: ['send', 'guard'].includes(last.k) ? last.k : 'thread', own: null };
  const callee = program.functions.get(last.name.text);
  const index = callee.parameters.findIndex(parameter => isMailbox(parameter.type) && parameter.type.mark === '?');
  const given = last.args[index], known = given?.k === 'variable' && !bound.has(given.name);
  return { name: last.name.text, own: known ? look(values, given.name) : null };
}
