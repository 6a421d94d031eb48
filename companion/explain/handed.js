// What a guard is handed: what earlier guards leave of a mailbox when they call the function that it stands in. A guard begins with
// that.

import { residual } from '../constraints.js';
import { within } from '../names.js';
import { simplify } from '../simplify.js';
import { mark, say } from './say.js';

/** {pattern, use} for each call that hands a rest over to the parameter that this guard receives from; the pattern is spelled. */
export function handedTo(guard, names) {
  const { target } = guard;
  if (target?.what !== 'parameter') return [];
  const calls = names.uses.filter(use => use.how === 'call' && use.parameter === target.parameter && use.binder.what === 'from');
  return calls.map(use => ({ use, pattern: restOf(use.binder) }));
}
/** What is left behind a `from` name. */
export const restOf = binder => say(simplify(residual(binder.guard.pattern, binder.tag)));

/** A hint and its mark, where a guard doesn't begin with what the one before left; null where it does, or it isn't known. */
export function beginsOtherwise(guard, names) {
  const own = say(simplify(guard.pattern)), differs = ({ pattern, use }) => pattern !== own && use.term.def !== guard.def;
  const other = handedTo(guard, names).find(differs);
  if (!other) return null;
  return {
    mark: mark(other.use, `here ${other.pattern} is left, and handed to this guard`),
    hint: `a guard begins with what the one before left: ${guard.mailbox.text} : ${other.pattern}`,
  };
}

const STATES = 'types don\'t look at the test of an `if`: what is counted there has to stand in the patterns, with a function for each'
  + ' state (docs/IDIOMS.md, "An actor is a function for each of its states")';
/** A hint where an `if` frees a mailbox on one branch, as when a count is spent, and receives from it on the other. */
export function countedByTest(term, binder, names) {
  const uses = names.usesOf(binder), has = (part, hows) => uses.some(use => hows.includes(use.how) && within(use, part));
  for (let one = term; one; one = one.up) {
    const parts = one.k === 'if' ? [one.then, one.other] : [];
    if (parts.some(part => has(part, ['free'])) && parts.some(part => has(part, ['guard']))) return STATES;
  }
  return null;
}
