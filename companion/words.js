// Where the messages of a word come from: the constraint behind a verdict `refuted` or `undecided`, and the uses that make up its
// word. For `refuted` the word is `pat`'s; for `undecided` small words are tried, up to a size and a time. What is found explains a
// verdict, and is none itself: where nothing is found, the verdict stands all the same.

import { tagsOf } from './tree.js';
import { constraintsOf } from './constraints.js';
import { expanded } from './expand.js';
import { Bound, keyOf, wordsWithin, below, leastValues, leavesOf } from './derivable.js';

export { constraintsOf, openTypes, residual } from './constraints.js';
export { smallWords } from './derivable.js';
export { tagsOf } from './tree.js';

const LARGEST_TRIED = 6;                  // messages, for `undecided`
const MOST_TIME = 1500;                   // milliseconds

/**
 * {constraint, word, leaves, all}, or null where none is found; a leaf is {tag, leaf, ways}, a word a list of tags, and `all` the
 * pattern of all that may come, or null where that has no end.
 */
export function wordOf(program, names, verdict, { size = LARGEST_TRIED, time = MOST_TIME } = {}) {
  const { constraints } = constraintsOf(program, names), until = Date.now() + time, { a, z } = verdict.place;
  const here = constraints.filter(one => one.right.k !== '$' && one.place.a === a && one.place.z === z);
  const found = verdict.kind === 'refuted' ? refuting(here, constraints, verdict.word, until)
    : smallest(here, constraints, size, until);
  return found && { ...found, all: expanded(found.constraint.left, constraints) };
}

/** The given word, derived from its own parts alone. */
function refuting(here, constraints, word, until) {
  const tags = [...new Set(word)], most = tags.map(tag => word.filter(one => one === tag).length);
  const bound = new Bound(tags, { most, size: word.length }), key = most.join();
  for (const constraint of here) {
    const values = leastValues(constraint.left, constraints, bound, until);
    const found = values && wordsWithin(constraint.left, values, bound).get(key);
    const allowed = wordsWithin(constraint.right, new Map(), bound).has(key);
    if (found && !allowed) return { constraint, word, leaves: leavesOf(found) };
  }
  return null;
}

/** A smallest word that may come and isn't allowed, with as few different messages as there are. */
function smallest(here, constraints, size, until) {
  for (let most = 0; most <= size; most++) for (const constraint of here) {
    const bound = new Bound(tagsOfConstraint(constraint, constraints), { size: most });
    const values = leastValues(constraint.left, constraints, bound, until);
    if (!values) return null;
    const allowed = wordsWithin(constraint.right, new Map(), bound);
    for (const word of wordsWithin(constraint.left, values, bound).values())
      if (!allowed.has(keyOf(word))) return { constraint, word: bound.spell(word), leaves: leavesOf(word) };
  }
  return null;
}
/** The tags that can be in a constraint's words. */
function tagsOfConstraint({ left, right }, constraints) {
  return [...new Set([left, right, ...below(left, constraints).map(one => one.left)].flatMap(tagsOf))];
}
