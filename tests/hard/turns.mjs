// Says what `pat checkpoint` and `pat resume` have to write, by a reading of docs/RUNNING.md of its own: the companion's parser and machine,
// a reader and a writer of checkpoints, and the turns of one worker. It judges nothing: what it is given has to be accepted by `pat`.
//
// Reads a JSON value a line, {program, steps} or {program, checkpoint, steps}, and writes one for each: {checkpoint}, without derivation
// and certificates, or {text}, what `resume` writes.

import { createInterface } from 'node:readline';
import { parse, Source } from '../../companion/parse.js';
import { resolve } from '../../companion/names.js';
import { freeNames, Configuration, Mailbox, Thread } from '../../companion/machine.js';
import { numbered, variablesOf } from '../../companion/explain/judged.js';

const ALLOWANCE = 256;

// ------------------------------------------------------------------------------------------- nodes, variables, and values

/** A program whose terms and variables have the numbers of its derivations. */
class Numbered {
  constructor(text) {
    this.program = parse(new Source(text));
    const names = resolve(this.program);
    this.nodes = numbered(this.program).map(({ term, def }, at, all) =>
      ({ term: at > 0 && all[at - 1].term === term ? unitBehind(term) : term, def }));
    this.numbers = new Map(this.nodes.map(({ term }, at) => [term, at]));
    this.variables = new Map(this.program.declarations.filter(one => one.k === 'def').map(def => [def, variablesOf(def, names)]));
  }
  /** The number of the variable that this name is in a term, or in what may stand at a place of its function. */
  numberOf(name, node) {
    const { term, def } = this.nodes[node], all = this.variables.get(def), at = term.a;
    const found = all.flatMap((one, number) => one.name === name && one.scope.a <= at && at <= one.scope.z ? [number] : []);
    return found.reduce((best, one) => best === null || all[one].scope.a >= all[best].scope.a ? one : best, null);
  }
  nameOf(number, node) { return this.variables.get(this.nodes[node].def)[number].name; }
}
/** What follows a `free`. */
function unitBehind(term) { return term.behind ??= { k: 'expression', value: { k: 'literal', value: null }, a: term.a, z: term.z }; }

function spelled(value) {
  if (value instanceof Mailbox) return `#${value.number}`;
  if (value === null) return 'unit';
  return typeof value === 'string' ? `"${value.replace(/["\\]/g, '\\$&')}"` : String(value);
}
function valueOf(text, mailboxes) {
  if (text === 'unit') return null;
  if (text === 'true' || text === 'false') return text === 'true';
  if (text[0] === '#') return mailboxes.get(Number(text.slice(1)));
  return text[0] === '"' ? text.slice(1, -1).replace(/\\(.)/g, '$1') : BigInt(text);
}
const VALUE = /#\d+|unit|true|false|-?\d+|"(?:[^"\\]|\\.)*"/y;

/** The values between two brackets, each behind its variable where there are variables. */
function valuesOf(text, see) {
  for (let at = 0; at < text.length;) {
    const [head, number] = /^(?:v(\d+)=)?/.exec(text.slice(at));
    VALUE.lastIndex = at + head.length;
    const [value] = VALUE.exec(text);
    see(value, Number(number));
    at += head.length + value.length + 2;
  }
}

// ----------------------------------------------------------------------------------------------------------- checkpoints

const LINE = {
  next: /^next (\d+) (\d+) (\d+)$/, mailbox: /^mailbox (\d+) (\S+)/, message: /^message (\d+) (\d+) ([^(]+)\((.*)\)$/,
  thread: /^thread (\d+) (?:node (\d+) \{(.*)\}|value (.*?))(?: (?:g\d+|c\([^ "]*\)))?$/,
  frame: /^frame (?:v(\d+)|-) (\d+) \{(.*)\}(?: (?:g\d+|c\([^ "]*\)))?$/,
};

function readCheckpoint(numbers, text) {
  const configuration = new Configuration(numbers.program), mailboxes = new Map();
  configuration.threads.clear();
  let thread = null;
  const bound = (given, node) => {
    let values = null;
    valuesOf(given, (value, variable) => { values = { name: numbers.nameOf(variable, node), value: valueOf(value, mailboxes), up: values }; });
    return values;
  };
  for (const line of text.split('\n').slice(1, -1)) {
    const [word] = line.split(' ', 1), [, one, two, three, four] = LINE[word].exec(line);
    switch (word) {
      case 'next': [configuration.spawned, configuration.made, configuration.sent] = [one, two, three].map(Number); break;
      case 'mailbox': {
        const mailbox = new Mailbox(Number(one), null, two, null);
        mailboxes.set(mailbox.number, mailbox); configuration.live.add(mailbox); break;
      }
      case 'message': {
        const args = [];
        valuesOf(four, value => args.push(valueOf(value, mailboxes)));
        configuration.messages.set(Number(one), { number: Number(one), mailbox: mailboxes.get(Number(two)), tag: three, args, by: null }); break;
      }
      case 'thread':
        thread = new Thread(Number(one), '', null, null, null);
        if (two === undefined) thread.at(valueOf(four, mailboxes)); else thread.go(numbers.nodes[Number(two)].term, bound(three, Number(two)));
        configuration.threads.set(thread.number, thread); break;
      default: {
        const node = Number(two), name = one === undefined ? null : numbers.nameOf(Number(one), node);
        thread.frames = { name, body: numbers.nodes[node].term, values: bound(three, node), state: null, below: thread.frames };
      }
    }
  }
  return configuration;
}

/** The text of a checkpoint, without certificates. */
function checkpointOf(numbers, configuration) {
  const { spawned, made, sent } = configuration, lines = ['%%checkpoint', `next ${spawned} ${made} ${sent}`];
  const values = (term, but, bound) => {
    const node = numbers.numbers.get(term), found = [];
    for (const name of freeNames(term)) if (name !== but) {
      let one = bound;
      while (one.name !== name) one = one.up;
      found.push([numbers.numberOf(name, node), one.value]);
    }
    return `{${found.sort((one, other) => one[0] - other[0]).map(([number, value]) => `v${number}=${spelled(value)}`).join(', ')}}`;
  };
  for (const mailbox of configuration.live) lines.push(`mailbox ${mailbox.number} ${mailbox.interface}`);
  for (const message of configuration.messages.values())
    lines.push(`message ${message.number} ${message.mailbox.number} ${message.tag}(${message.args.map(spelled).join(', ')})`);
  for (const { number, control, value, values: bound, frames } of configuration.threads.values()) {
    const stands = control ? `node ${numbers.numbers.get(control)} ${values(control, null, bound)}` : `value ${spelled(value)}`;
    lines.push(`thread ${number} ${stands}`);
    const all = [];
    for (let frame = frames; frame; frame = frame.below) all.unshift(frame);
    for (const { name, body, values: kept } of all) {
      const node = numbers.numbers.get(body);
      lines.push(`frame ${name === null ? '-' : `v${numbers.numberOf(name, node)}`} ${node} ${values(body, name, kept)}`);
    }
  }
  return lines.map(line => `${line}\n`).join('');
}

// ----------------------------------------------------------------------------------------------------------------- turns

/** The shared step that a thread has, as {act, message}; null where none is enabled. */
function sharedStep(configuration, thread) {
  const { next } = thread;
  if (next !== 'guard' && next !== 'free') return next && { act: next, message: null };
  const message = next === 'guard' ? configuration.receivable(thread)[0] : undefined;
  if (message) return { act: 'receive', message };
  return configuration.whyNotFree(thread) === null ? { act: 'free', message: null } : null;
}
const canStep = (configuration, thread) => thread.next === null || sharedStep(configuration, thread) !== null;

function nextThread(configuration, last) {
  const able = [...configuration.threads.values()].filter(thread => canStep(configuration, thread));
  return able.find(thread => thread.number > last) ?? able[0];
}

function takeShared(configuration, thread) {
  const step = sharedStep(configuration, thread), { control } = thread;
  if (step === null) return '-';
  configuration.take(thread, step.act, step.message);
  if (control?.k === 'free') thread.go(unitBehind(control), null);
  return step.message ? `receive ${step.message.number}` : step.act;
}

/** Takes the turns of worker 0, and gives their entries and how many steps they were. */
function takeTurns(configuration, most) {
  const entries = [];
  let steps = 0, last = -1;
  while (steps < most) {
    const thread = nextThread(configuration, last);
    if (!thread) break;
    const allowance = Math.min(ALLOWANCE, most - steps), local = thread.settle(configuration.program, allowance);
    const act = local < allowance ? takeShared(configuration, thread) : '-';
    entries.push(`0 ${thread.number} ${local} ${act}`);
    steps += local + (act !== '-');
    last = thread.number;
  }
  return { entries, steps };
}

function outcomeOf(configuration, steps) {
  const threads = [...configuration.threads.values()];
  if (!threads.length) return `done ${steps}${configuration.live.size ? ` left ${configuration.live.size}` : ''}`;
  if (threads.some(thread => canStep(configuration, thread))) return `budget ${steps}`;
  return `waiting ${steps} ${threads.map(thread => thread.number).join(' ')}`;
}

// -------------------------------------------------------------------------------------------------------------- the calls

function answer({ program, checkpoint, steps }) {
  const numbers = new Numbered(Buffer.from(program));
  const configuration = checkpoint === undefined ? new Configuration(numbers.program) : readCheckpoint(numbers, checkpoint);
  const { entries, steps: taken } = takeTurns(configuration, steps);
  if (checkpoint === undefined) return { checkpoint: checkpointOf(numbers, configuration) };
  const printed = configuration.lines.map(line => `out ${line}`), outcome = outcomeOf(configuration, taken);
  return { text: ['%%history', ...entries, '%%output', ...printed, outcome, ''].join('\n') };
}

for await (const line of createInterface({ input: process.stdin })) {
  let said;
  try { said = answer(JSON.parse(line)); } catch (error) { said = { error: error.stack }; }
  process.stdout.write(`${JSON.stringify(said)}\n`);
}
