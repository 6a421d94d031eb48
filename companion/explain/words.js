// Patterns that don't fit: `refuted` and `undecided`. The uses that make up the word are shown, as what stands at the place asks.

import { within } from '../names.js';
import { parsePattern } from '../parse.js';
import { smallWords, tagsOf, wordOf } from '../words.js';
import { Claim } from './claim.js';
import { beginsOtherwise } from './handed.js';
import { hintsOf } from './hints.js';
import { chapter, code, did, mark, say, short, LANGUAGE } from './say.js';

const UNDECIDED = chapter(LANGUAGE, 'What `check` answers, and what to write then') + ': `undecided`';

export function sides(context) {
  const { verdict, program, names } = context, found = wordOf(program, names, verdict, context.words);
  const open = verdict.kind === 'undecided';
  if (open && !found) return leftOpen(context);
  const claim = new Claim(context, found), told = withGuards(tell(claim), claim);
  if (!open) return told;
  const word = `the word: ${claim.word.join(' ') || '1'} not in ${say(claim.allowed)}`;
  return { ...told, doc: UNDECIDED,
    notes: [...told.notes ?? [], word, 'pat itself leaves this open; the word was found by trying small ones'] };
}
/** Where the word comes from a guard that doesn't begin with what was left to it, that is what to mend. */
function withGuards(told, { names, leaves }) {
  const isSource = term => leaves.some(({ leaf }) => leaf?.how === 'pattern' && within(leaf, term.pattern));
  const guards = names.terms.filter(term => term.k === 'guard' && isSource(term));
  const otherwise = guards.map(guard => beginsOtherwise(guard, names)).find(Boolean);
  return otherwise ? { ...told, marks: [...told.marks, otherwise.mark], hints: [otherwise.hint] } : told;
}
function tell(claim) {
  if (claim.binder) return claim.binder.kind.mark === '!' ? right(claim) : mailbox(claim);
  switch (claim.term?.k) {
    case 'new': return made(claim);
    case 'call': return given(claim);
    default: return sequence(claim);
  }
}

/** A name with `!`: more is sent than the right says, or less. */
function right(claim) {
  const { binder, pattern, little, name } = claim, unused = !claim.names.usesOf(binder).length, payload = binder.what === 'payload';
  const label = payload ? `it came in ${binder.tag}, ${little ? 'with the duty' : 'for'} ${pattern}`
    : `this right is ${little ? 'the duty' : 'for'} ${pattern}`;
  return {
    headline: little ? `${name} may be let go with ${claim.missing ? claim.sayMissing() : pattern} still to be sent`
      : `${claim.holds} may be sent to ${name}, and this right is for ${pattern}`,
    marks: [mark(claim.place, label + (unused ? ', and it isn\'t used' : ''), true),
      ...claim.sources.length ? claim.sources : claim.uses(3)],
    hints: [little ? 'on each path send what the right asks for, or hand the right on'
      : `send less, or widen the right ${payload ? `where ${binder.tag} is declared` : 'in the signature'}`],
  };
}
/** A name with `?`: what may be in it, and what the guard that follows is ready for. */
function mailbox(claim) {
  const { binder, names } = claim, taken = binder.what === 'from' ? `when ${binder.tag} is taken, ` : '';
  const holds = claim.nothing ? 'it may be that nothing comes any more' : `${claim.holds} may be in it or still come`;
  return {
    headline: claim.headline(),
    marks: [mark(claim.place, taken + holds, true), ...claim.sources, expects(claim, names.guardOf(binder))],
    notes: taken && !claim.nothing ? ['messages have no order: what was sent earlier may be taken later'] : [],
    hints: hintsOf(claim),
  };
}
function expects({ binder, names, pattern }, guard) {
  if (guard?.k === 'free') return mark(guard.mailbox, 'but here it is freed: nothing may come any more');
  if (guard) return mark(guard.pattern, `but this guard expects ${pattern}`);
  const use = names.usesOf(binder).find(one => one.mark === '?');
  return use ? mark(use, `but ${did(use)}, which expects ${pattern}`) : null;
}
/** `new[I]`: what is waited for is never sent. */
const made = claim => ({
  headline: `what ${claim.name} waits for, ${claim.pattern}, is never sent`,
  marks: [mark(claim.place, 'a new mailbox is empty', true), ...claim.uses(6), ...claim.sources],
  hints: [`give somebody a right to send to ${claim.name}, or let the pattern allow for none`],
});
/** A call that gives a mailbox back. */
const given = claim => ({
  headline: `${claim.name}, which ${claim.term.name.text}(..) gives back, may hold ${claim.holds}, and `
    + (claim.pattern === '1' ? 'is used as an empty one' : `${claim.pattern} is expected of it`),
  marks: [mark(claim.place, 'it is given back here', true), ...claim.sources, ...claim.uses(2)],
  hints: hintsOf(claim),
});
/** A `let`, a sequence or a choice: what is sent there and elsewhere, and what is received. */
function sequence(claim) {
  const { place, pattern, who, term, names } = claim;
  const receives = who && term ? names.usesOf(who).filter(use => use.mark === '?' && within(use, term)) : [];
  const expectedBy = use => use.term.pattern ? short(say(use.term.pattern)) : use.how === 'free' ? '1' : null;
  const first = receives.find(use => expectedBy(use) === pattern) ?? receives[0];
  const expected = pattern === '1' ? 'nothing may come any more' : `${pattern} is expected`;
  const here = first ? mark(first, `${did(first)}, where ${expected}`, true)
    : mark({ a: place.a, z: place.a + 1 }, `here ${expected}`, true);
  return { headline: claim.headline(), marks: [here, ...claim.sources], hints: hintsOf(claim) };
}

/** `undecided`, and no small word was found. */
function leftOpen({ place, names, binder }) {
  const guard = binder && names.guardOf(binder), name = binder ? code(binder.name) : 'the mailbox';
  return {
    headline: `it can't be told whether what may come to ${name} is what is expected`,
    marks: [mark(place, '', true), guard?.k === 'guard'
      ? mark(guard.pattern, 'expected here; a pattern that repeats a product isn\'t always decided') : null],
    notes: ['no word up to six messages shows that it isn\'t'],
    hints: ['look first whether a message may be missing, or one too many', guard?.k === 'guard' ? hintOfFlat(guard.pattern) : null],
    doc: UNDECIDED,
  };
}
const LARGEST_COMPARED = 6;               // messages
function hintOfFlat(pattern) {
  const tags = [...new Set(tagsOf(pattern))], flat = tags.length === 1 ? `*${tags[0]}` : `*(${tags.join(' + ')})`;
  const count = one => smallWords(one, LARGEST_COMPARED).length, alike = count(parsePattern(flat)) === count(pattern);
  return alike ? `write ${flat}, which has the same words up to six messages, and is always decided`
    : 'a pattern with stars over messages and sums of messages alone is always decided';
}
