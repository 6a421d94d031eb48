// Rules of what a thread may do with a name: Alias, Order, Double, Branch, Unused, Polarity, Second of the answer `untypable`.

import { within } from '../names.js';
import { simplify } from '../simplify.js';
import { restOf } from './handed.js';
import { code, did, mark, originOf, say, shortCode } from './say.js';

export function alias({ term, names }) {
  const uses = names.uses.filter(use => use.term === term);
  const first = uses.find((use, index) => uses.some((other, at) => at > index && other.binder === use.binder));
  const both = uses.filter(use => use.binder === first.binder);
  const label = use => use.how === 'send' ? 'the message goes to it' : use.how === 'payload' ? 'and the message brings it along'
    : `as ${code(use.parameter?.name.text ?? '?')} of ${use.callee}`;
  return {
    headline: `mailbox ${code(first.binder.name)} stands twice in one ${term.k}`,
    marks: both.map(use => mark(use, label(use), use === both.at(-1))),
    notes: ['the other side would have two names for one mailbox, and could use up under one what it relies on under the other'],
    hints: [`make a second mailbox with new[${first.binder.kind.interface}]`
      + (term.k === 'call' ? ', or let the other side make one' : '')],
  };
}

// --------------------------------------------------------------------------------------------------------------- Order

export const order = context => context.term.k === 'guard' ? orderInGuard(context) : orderInSteps(context);

function orderInGuard({ term, names }) {
  const { name } = term.target;
  const use = names.uses.find(one => one.binder === term.target && one.a > term.mailbox.z && within(one, term));
  const clause = term.clauses.findLast(one => one.body && one.a < use.a), renamed = clause.from && clause.from.text !== name;
  return {
    headline: `${code(name)} is used behind its own guard`,
    marks: [mark(term.mailbox, `${code(name)} is given up to this guard`),
      renamed ? mark(clause.from, 'and goes on under this name') : null, mark(use, did(use), true)],
    hints: [clause.k === 'receive' ? `go on with ${code(clause.from.text)}, the name behind \`from\``
      : 'in a `free` clause the mailbox is gone'],
  };
}
/** What is given up in the bound part of a `let`, and the first use behind it. */
function orderInSteps({ term, names, source }) {
  const givenUp = use => within(use, term.bound) && !use.second && (use.mark === '?' || use.how === 'value');
  for (const given of names.uses.filter(givenUp)) {
    const later = names.uses.find(use => use.binder === given.binder && within(use, term.body));
    if (!later) continue;
    const waits = given.how === 'call' || given.how === 'guard';
    return {
      headline: `${code(given.binder.name)} is used after it was given up`,
      marks: [mark(given, did(given) + (waits ? ', and this thread goes on only when that is done' : '')),
        mark(later, 'and then: ' + did(later), true)],
      hints: [hintOfOrder(given, later, source)],
    };
  }
}
function hintOfOrder(given, later, source) {
  switch (given.how) {
    case 'call': return later.mark === '?' ? 'let just one of the two receive from it'
      : `spawn { ${shortCode(source.slice(given.term))} }, so that it is served beside what follows`;
    case 'guard': return 'send before the guard; behind it the mailbox goes on under the name behind `from` alone';
    case 'value': return 'a mailbox has one name at a time: go on with the new one';
    default: return 'free it behind its last use';
  }
}

// ------------------------------------------------------------------------------------------------------ Double, Branch

export function double({ term, names }) {
  for (const one of names.uses.filter(use => use.mark === '?' && within(use, term.bound))) {
    const other = names.uses.find(use => use.binder === one.binder && use.mark === '?' && within(use, term.body));
    if (other) return {
      headline: `two would receive from ${code(one.binder.name)}`,
      marks: [mark(one, did(one)), mark(other, 'and again: ' + did(other), true), mark(one.binder, originOf(one.binder))],
      notes: ['a mailbox has one receiver'],
      hints: ['let one receive and pass the messages on, or give each a mailbox of its own'],
    };
  }
}

/** The parts of a choice: {body, where, shown}. */
function partsOfChoice(term) {
  if (term.k === 'if') return [{ body: term.then, where: 'the first branch', shown: term.then },
    { body: term.other, where: 'the else branch', shown: term.other }];
  return term.clauses.filter(clause => clause.body).map(clause =>
    ({ body: clause.body, where: clause.k === 'receive' ? `the clause for ${clause.tag.text}` : 'the `free` clause', shown: clause }));
}
const usesUp = use => use.mark === '?' || use.how === 'value';
export function branch({ term, names }) {
  const parts = partsOfChoice(term);
  for (const binder of names.binders.filter(one => !within(one, term))) {
    const used = ({ body }) => names.usesOf(binder).find(use => within(use, body) && usesUp(use));
    const lying = parts.find(part => !used(part)), other = parts.find(used);
    if (!lying || !other) continue;
    const sent = names.usesOf(binder).find(use => within(use, lying.body));
    return {
      headline: `one branch uses up ${code(binder.name)}, and another lets it lie`,
      marks: [mark(used(other), 'here ' + did(used(other))), mark(binder, originOf(binder)),
        mark(lying.shown, `here nothing receives from ${code(binder.name)}` + (sent ? `: ${did(sent)}, no more` : ''), true)],
      hints: [`write free(${binder.name}) in ${lying.where}, if nothing can be in it; else call a function there that takes what is`
        + ' left, and frees it in the end'],
    };
  }
}

// ------------------------------------------------------------------------------------------- Unused, Polarity, Second

export function unused({ binder }) {
  const why = { from: `when ${binder.tag} is taken, the rest of the mailbox stands under this name`,
    parameter: 'it is handed over to be received from', payload: `it came in ${binder.tag}, to be received from` };
  return {
    headline: `mailbox ${code(binder.name)} is let go, though it has still to be received from`,
    marks: [mark(binder, why[binder.what] ?? '', true)],
    hints: [hintOfUnused(binder)],
  };
}
function hintOfUnused(binder) {
  const { name } = binder;
  if (binder.what !== 'from') return `free(${name}) if nothing can be in it; else a guard for it, or a call that takes it`;
  const rest = restOf(binder), own = say(simplify(binder.guard.pattern)) === rest && binder.of.binders.includes(binder.guard.target);
  if (rest === '1') return `end this clause with free(${name}): behind this guard nothing more can come`;
  return own ? `${rest} may still come to it: go on with ${binder.of.name.text}(..), or with a guard for that`
    : `${rest} may still come to it, since messages have no order: go on with a guard for that, or with a call whose guard begins so`;
}

export function polarity(context) {
  const { term, binder } = context;
  if (!binder && (term?.k === 'new' || term?.k === 'call')) return polarityOfMade(context);
  return polarityOfName(context);
}
const MOST_USES = 3;
function polarityOfMade({ term, names }) {
  const named = names.nameOfLet(term), uses = named ? names.usesOf(named) : [], received = uses.some(use => use.mark === '?');
  const made = term.k === 'new' ? 'it is made here'
    : `${term.name.text} gives back ${term.kind.mark === '?' ? 'the right to receive' : 'a right to send'}`;
  const marks = [mark(term, made, true), ...uses.slice(0, MOST_USES).map(use => mark(use, did(use)))];
  if (received) return {
    headline: `this mailbox is ${term.kind.mark === '!' ? 'one to send to, and is received from' : 'used the other way round'}`,
    marks, hints: ['change the mark of the result'],
  };
  return {
    headline: `nobody receives from ${named ? `the mailbox ${code(named.name)}` : 'this mailbox'}`, marks,
    notes: [uses.length ? 'what is sent to it would lie there for ever' : 'it isn\'t used at all'],
    hints: [hintOfMade(named, uses)],
  };
}
/** Where a right to send goes to just one function, that one is most often meant to be the receiver. */
function hintOfMade(named, uses) {
  const calls = uses.filter(use => use.how === 'call' && use.parameter);
  if (!named || !uses.length) return 'spawn a thread that receives from it, guard it here, or leave it out';
  const [{ callee, parameter } = {}] = calls, written = `${parameter?.name.text}: ${named.kind.interface}?`;
  const receiver = calls.length === 1 ? `; or, if ${callee} is to receive, write ${written} there` : '';
  return `spawn a thread that receives from ${code(named.name)}, or guard it here${receiver}`;
}
function polarityOfName({ binder, names }) {
  const { kind, what, tag, name } = binder, uses = names.usesOf(binder);
  const other = uses.find(use => use.mark && use.mark !== kind.mark) ?? uses[0];
  const [is, used] = kind.mark === '!' ? ['send', 'receive'] : ['receive', 'send'];
  const from = what === 'from', label = from ? 'the rest of the mailbox is to be received from'
    : what === 'payload' ? `${tag} brings it so` : 'declared here';
  return {
    headline: `${code(name)} is a right to ${is}, and is used as one to ${used}`,
    marks: [mark(from ? binder : kind, label, !other), other && mark(other, did(other), true),
      what === 'payload' ? mark(binder, `it came in ${tag}`) : null, from && receiverWithout(other, names)?.mark],
    hints: from ? [receiverWithout(other, names)?.hint
      ?? 'it may be sent to as well, but in the end it has to be received from or freed'] : hintsOfPolarity(binder, other),
  };
}
/** Where a right goes to a parameter that is declared to send, and is received from: that is what to mend; else null. */
function receiverWithout(use, names) {
  const type = use?.parameter?.type, binder = type?.mark === '!' && names.binders.find(one => one.parameter === use.parameter);
  if (!binder || !names.usesOf(binder).some(one => one.mark === '?')) return null;
  return { mark: mark(type, 'declared as a right to send, though it is received from'),
    hint: `write ${binder.name}: ${type.interface}? in ${use.callee}, which receives from it` };
}
function hintsOfPolarity({ kind, name }, other) {
  if (kind.mark === '?') return [`write ${kind.interface}! there, or receive from ${code(name)} in the end, by a guard, a call or a spawn`];
  const receiver = other?.how === 'call' ? ` ${other.callee}(..) is for the one who receives` : '';
  return [`if whoever has it is to send, let it send a message here:${receiver || ' it may not receive'}`,
    `if it is to receive, write ${kind.interface}? there; then nobody else receives`];
}

export function second({ binder, names, source }) {
  const use = names.usesOf(binder).find(one => !one.second), came = binder.what === 'payload', name = code(binder.name);
  return {
    headline: `${name} ${came ? 'came in a message' : 'is a right to send'}, and `
      + (use.how === 'value' ? 'may not be given back or renamed' : 'this thread may not receive from it itself'),
    marks: [mark(binder, came ? `it came in ${binder.tag}` : 'a right to send may be used and sent on'), mark(use, did(use), true)],
    notes: ['the thread may hold the same mailbox under another name' + (came ? '; a new thread can\'t' : '')],
    hints: [use.how !== 'value' ? `spawn { ${shortCode(source.slice(use.term))} }`
      : `use ${name} here${came ? ', or give back the mailbox in which it arrived' : ', under its own name'}`],
  };
}
