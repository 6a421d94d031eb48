// Where a history leads, so that a run can go on from there after a node was lost: the program's steps are taken as the history
// says (companion/machine.js), and threads, frames, mailboxes and messages are written for the nodes, together with a program that
// has functions for all places in its middle that occur. It decides nothing: `pat replay` judges the whole history at the end,
// with what came before and what comes of this.
import { closeSync, existsSync, openSync, readSync } from 'node:fs';
import { join } from 'node:path';
import { Configuration, Mailbox, look } from '../../companion/machine.js';
import { isMailbox } from '../../companion/names.js';
import { Atom, Tuple, bytesOf } from './terms.js';
import { Translation } from './translate.js';

const PIECE = 2 ** 20, NEWLINE = 10, NONE = new Atom('none'), UNIT = new Atom('unit');

/** A piece of the history that is whole; the one that is being written has no number. */
export const pieceFile = (folder, number) => join(folder, `history.${number}`);

/** Takes the history for one: nobody looks whether a mailbox may be freed; and it keeps no lines. */
class Trusting extends Configuration {
  whyNotFree() { return null; }
  print(thread) { thread.at(null); return {}; }
}

export class Front {
  constructor(program) {
    this.program = program;
    this.configuration = new Trusting(program);
    this.piece = 0;
    this.read = 0;
    this.entries = 0;
  }

  /** Takes all entries that were written since. */
  goOn(folder) {
    this.takePieces(folder);
    this.takeFrom(join(folder, 'history'));
  }
  /** Takes those of pieces that are whole. */
  takePieces(folder) {
    for (let file; existsSync(file = pieceFile(folder, this.piece)); this.piece++) {
      this.takeFrom(file);
      this.read = 0;
    }
  }
  takeFrom(file) {
    const handle = openSync(file, 'r'), piece = Buffer.alloc(PIECE);
    try {
      for (;;) {
        const size = readSync(handle, piece, 0, PIECE, this.read), end = piece.subarray(0, size).lastIndexOf(NEWLINE) + 1;
        if (end === 0) return;
        this.read += end;
        for (const line of piece.toString('latin1', 0, end - 1).split('\n')) this.take(line);
      }
    } finally { closeSync(handle); }
  }
  take(line) {
    const [, number, locals, act, taken] = line.split(' '), { configuration } = this;
    const thread = configuration.threads.get(Number(number));
    if (thread.settle(this.program, Number(locals)) !== Number(locals)) throw new Error(`entry ${this.entries}: ${line}`);
    if (act !== '-') configuration.take(thread, act, act === 'receive' ? configuration.messages.get(Number(taken)) : null);
    this.entries += 1;
  }

  /** The module's text and the configuration's bytes (otp/src/pat_configuration.erl says what is in them). */
  written(module) { return new Written(this.program, this.configuration).texts(module); }
}

class Written {
  constructor(program, configuration) {
    Object.assign(this, { program, configuration, translation: new Translation(program), holders: new Map(), kept: new Set() });
  }
  texts(module) {
    const threads = [...this.configuration.threads.values()].map(thread => this.thread(thread));
    const mailboxes = [...this.configuration.live].filter(mailbox => !this.kept.has(mailbox))
      .map(mailbox => new Tuple(mailbox.number, this.holders.get(mailbox) ?? NONE));
    const messages = [...this.configuration.messages.values()].map(message => this.message(message));
    return { text: this.translation.module(module), bytes: bytesOf(new Tuple(threads, mailboxes, messages)) };
  }
  thread(thread) {
    const keeps = [], frames = [], at = (name, values) => new Tuple(new Atom(name), values.map(valueOf));
    const point = (term, { name, binders }, environment) => {
      const values = binders.map(binder => look(environment, binder.name));
      binders.forEach((binder, index) => this.has(thread, term, binder, values[index], keeps));
      return at(name, values);
    };
    const { control } = thread;
    const first = control ? point(control, this.translation.control(control), thread.values)
      : new Tuple(new Atom('value'), valueOf(thread.value));
    if (thread.value instanceof Mailbox && !control) this.holders.set(thread.value, thread.number);
    for (let frame = thread.frames; frame; frame = frame.below)
      frames.push(point(frame.body, this.translation.frame(frame.body.up), frame.values));
    return new Tuple(thread.number, first, frames, keeps.map(mailbox => mailbox.number));
  }
  /** A thread that has a mailbox keeps it, if nobody else will ever receive from it. */
  has(thread, term, binder, value, keeps) {
    if (!isMailbox(binder.kind)) return;
    this.holders.set(value, thread.number);
    if (this.kept.has(value) || !this.translation.homes.isReceivedIn(term, binder)) return;
    this.kept.add(value);
    keeps.push(value);
  }
  message({ number, mailbox, tag, args }) {
    const tags = [...this.program.interfaces.get(mailbox.interface).tags.keys()];
    return new Tuple(number, mailbox.number, tags.indexOf(tag), args.map(valueOf));
  }
}

function valueOf(value) {
  if (value === null) return UNIT;
  if (typeof value === 'boolean') return new Atom(String(value));
  return value instanceof Mailbox ? new Tuple(new Atom('mailbox'), value.number) : value;
}
