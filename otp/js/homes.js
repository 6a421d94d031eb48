// Where mailboxes are kept, and which threads run where one is kept already. It decides what is quick, never what is right: a
// mailbox that is kept elsewhere is asked for each message.
//
// A binder stays where it is if each use that receives is in the thread that has it: a guard or free, or a call of a function
// whose parameter stays as well. A mailbox that is bound so is kept by its thread; and a new thread that has such a binder runs in
// the process that keeps the mailbox.
import { isMailbox } from '../../companion/names.js';

const RECEIVES = new Set(['guard', 'free', 'value']);
const isReceiving = use => RECEIVES.has(use.how) || (use.mark === '?' && (use.how === 'call' || use.how === 'payload'));

export class Homes {
  constructor(names) {
    this.names = names;
    this.leaves = new Set();
    while (this.moreLeave());
  }

  /** Binders that can't be said to stay, if those that are known by now can't; whether there were more. */
  moreLeave() {
    const before = this.leaves.size;
    for (const binder of this.names.binders) {
      const home = threadOf(definedAt(binder));
      if (isMailbox(binder.kind) && !this.names.usesOf(binder).every(use => this.keeps(use, home))) this.leaves.add(binder);
    }
    return this.leaves.size > before;
  }

  /** Whether the right to receive is still in thread `home` after this use. */
  keeps(use, home) {
    if (!isReceiving(use)) return true;
    if (threadOf(use.term) !== home) return false;
    switch (use.how) {
      case 'guard': return use.term.clauses.every(clause => clause.k !== 'receive' || !this.leaves.has(clause.fromBinder));
      case 'free': return true;
      case 'call': return !this.leaves.has(this.parameter(use));
      default: return false;
    }
  }
  parameter(use) { return this.names.program.functions.get(use.callee).binders[use.index]; }

  /** Of `let x = new[I] in ..`: whether x is kept in its thread. */
  isHere(binder) { return !this.leaves.has(binder); }

  /** A mailbox of which the thread that is spawned will alone receive; or undefined. */
  adopted(spawn, free) { return free.find(binder => this.isReceivedIn(spawn.body, binder)); }

  /** Whether the thread that is at a term receives there from what is free in it, and nobody else ever will. */
  isReceivedIn(term, binder) {
    const home = threadOf(term.up), inside = this.names.usesOf(binder).filter(use => isReceiving(use) && isWithin(use.term, term));
    return inside.length > 0 && inside.every(use => this.keeps(use, home));
  }
}

/** The term at which a name is bound; a parameter has none. */
const definedAt = binder => binder.what === 'parameter' ? null : binder.guard ?? binder.term;

/** The innermost spawn around a term; null where that is the whole function. */
function threadOf(term) {
  while (term && term.k !== 'spawn') term = term.up;
  return term ?? null;
}

function isWithin(term, outer) {
  while (term && term !== outer) term = term.up;
  return term === outer;
}
