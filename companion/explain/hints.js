// What to write where a word may come that isn't allowed.

import { patternParts } from '../tree.js';
import { tagsOf } from '../words.js';
import { countedByTest } from './handed.js';
import { say } from './say.js';

const LONGEST_ALL = 60;                   // columns of a pattern in a hint

/** What to write: by what is missing, or too much. */
export function hintsOf(claim) {
  const taken = claim.leaves.find(({ leaf }) => leaf?.how === 'taken')?.leaf;
  if (claim.nothing && taken) return [hintOfLater(taken.tag, claim)];
  const pair = pairOf(claim.allowed);
  if (claim.little && pair && !claim.nothing) return hintsOfPair(claim, pair);
  const counted = claim.pattern === '1' && claim.who && claim.term ? countedByTest(claim.term, claim.who, claim.names) : null;
  return claim.little ? [hintOfLittle(claim)] : [hintOfMuch(claim), counted].filter(Boolean);
}
/** A star over a product: what belongs together has to be sent together. */
const pairOf = pattern => pattern.k === '*' && pattern.of.k === '.' ? pattern : patternParts(pattern).map(pairOf).find(Boolean);
function hintsOfPair(claim, pair) {
  const sent = [...new Set(claim.word)].join(' and '), missing = claim.missing?.length ? claim.sayMissing() : 'what is missing';
  return [`let the function that sends ${sent} send ${missing} as well: only sent together they are ${say(pair)}`,
    'where two sides send them, give each side a mailbox of its own'];
}
function hintOfLittle(claim) {
  const branch = claim.leaves.some(({ leaf }) => leaf?.how === 'branch');
  const what = claim.missing?.length ? claim.sayMissing() : 'a message';
  const less = !claim.nothing && claim.all && claim.all.length <= LONGEST_ALL && claim.all !== claim.pattern;
  return `send ${what} on ${branch ? 'that branch too' : 'each path'}, or `
    + (less ? `expect what comes: ${claim.all}` : 'let the pattern allow for none');
}
function hintOfMuch(claim) {
  const known = new Set(tagsOf(claim.allowed)), unknown = [...new Set(claim.word.filter(tag => !known.has(tag)))];
  const all = claim.all && claim.all.length <= LONGEST_ALL && claim.all !== claim.pattern ? `: in all ${claim.all} may come` : null;
  if (claim.pattern === '1') return `guard it for what may still come${all ?? ''}, and free it when nothing can; or send less`;
  if (unknown.length) return `add ${unknown.join(' and ')} to the guard's pattern, with a clause for it${all ?? ''}; or don't send it`;
  return all ? `expect all of it${all}; or send less`
    : 'send less; or let the pattern have more of it (m.m for two, *m for any number), with clauses that take all of them';
}

/** A guard that forgot what comes later: what its own clause waits for is a factor of its pattern, and what comes again has a star. */
function hintOfLater(tag, { binder, allowed }) {
  const others = [...new Set(tagsOf(allowed))].filter(one => one !== tag);
  const after = others.length > 1 ? [`(${others.join(' + ')})`] : others;
  const expected = binder?.what === 'from' ? product(binder.guard.pattern, allowed) : [`*${tag}`, ...after].join('.');
  return 'a pattern counts all that comes in a mailbox\'s life: if more is to come later, the guard before expects that as well: '
    + expected;
}
const product = (...patterns) => patterns.map(one => one.k === '+' ? `(${say(one)})` : say(one)).join('.');
