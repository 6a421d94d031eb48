// The rows of docs/LANGUAGE.md on answers: what happened, and what to write. They stand in where no closer explanation is found.

import { code, mark, CHECK } from './say.js';

/** Of `untypable`, by rule: the table of rules, word by word. */
export const RULES = {
  Alias: ['a call or a send has one mailbox in two places', 'two mailboxes; or let the other side make one of its own'],
  Order: ['a mailbox is received from or given away for good, and used afterwards; or a clause goes on with the guarded name where'
    + ' `from` has another', 'use it before; go on with the name behind `from`'],
  Double: ['two threads, or two steps in a row, receive from one mailbox',
    'one receiver, which passes messages on; or a mailbox for each'],
  Branch: ['one branch receives from a mailbox, another sends to it or forgets it',
    '`free(x)` where nothing can be in it; else a call that takes what is left'],
  Payload: ['a clause whose message brings a mailbox uses one that isn\'t its own', 'see below'],
  Covers: ['something may be in the mailbox for which there is no clause',
    'a clause for that message; `free` where it may be empty; or a narrower pattern'],
  Unused: ['a right to receive lies unused, as a parameter, as a payload, or behind `from`',
    '`free(x)` if nothing is left in it; else a call or guard that goes on. A helper that waits in its caller\'s mailbox gives it back,'
    + ' `def ask(.., me: User?): User?`, and the caller binds it anew, `let me = ask(.., me) in ..`; or it frees it, and each question'
    + ' has a mailbox of its own'],
  Polarity: ['a right to send where one to receive is needed, or the other way round. At a `new[I]`: nobody receives from that mailbox',
    'see below'],
  Second: ['a mailbox that came in a message is received from or given back by the thread that got it',
    '`spawn { .. }` with it, or send it on; or give back the mailbox in which it came, with the message still in it, and let the caller'
    + ' take it out'],
};

/** What the other answers say, by kind. */
const KINDS = {
  refuted: 'whatever patterns are chosen, at this place these messages can come, and only that pattern is allowed',
  undecided: 'no proof is found that what comes here is allowed, and no counterexample either',
  unusable: 'for the sending type at this place no finite word is found',
  'too large': 'patterns of this interface grew past what is counted',
};

/** The verdict's line, its place and its row. */
export function fromRows({ verdict, place }) {
  const [happened, write] = RULES[verdict.rule] ?? [KINDS[verdict.kind] ?? `pat says: ${verdict.line}`, null];
  return {
    headline: happened,
    marks: [place && mark(place, verdict.word ? `${verdict.word.join(' ') || '1'} not in ${verdict.pattern}` : '', true)],
    notes: ['no closer explanation was found'],
    hints: [write && write !== 'see below' ? write : null],
    doc: RULES[verdict.rule] || KINDS[verdict.kind] ? `${CHECK}: ${code(verdict.rule ?? verdict.kind)}` : null,
  };
}
