// A pattern in few words: the same words, shorter. Two ways, of which the shorter text is taken: parts that add nothing are left out
// as they stand; or the pattern is closed to a sum of products of messages and stars (linear.js).

import { spellPattern } from './tree.js';
import { closed } from './linear.js';

const ONE = { k: '1' }, ZERO = { k: '0' };
const productOf = factors => factors.length ? factors.reduce((left, right) => ({ k: '.', left, right })) : ONE;
const sumOf = arms => arms.length ? arms.reduce((left, right) => ({ k: '+', left, right })) : ZERO;
const armsOf = pattern => pattern.k === '+' ? [...armsOf(pattern.left), ...armsOf(pattern.right)] : [pattern];
const factorsOf = pattern => pattern.k === '.' ? [...factorsOf(pattern.left), ...factorsOf(pattern.right)] : [pattern];

export function simplify(pattern) {
  const plain = trim(pattern), other = closed(plain);
  return other && spellPattern(other).length < spellPattern(plain).length ? other : plain;
}

/** Alike for patterns that differ in the order of their parts alone. */
function keyOf(pattern) {
  switch (pattern.k) {
    case 'tag': return pattern.tag;
    case '$': return '$' + pattern.variable;
    case '*': return `*(${keyOf(pattern.of)})`;
    case '.': return `(${factorsOf(pattern).map(keyOf).sort().join('.')})`;
    case '+': return `(${armsOf(pattern).map(keyOf).sort().join('+')})`;
    default: return pattern.k;
  }
}
function distinct(patterns) {
  const seen = new Map(patterns.map(one => [keyOf(one), one]));
  return [...seen.values()];
}

function trim(pattern) {
  switch (pattern.k) {
    case '*': return trimStar(trim(pattern.of));
    case '.': return trimProduct(factorsOf(pattern).map(trim).flatMap(factorsOf));
    case '+': return trimSum(armsOf(pattern).map(trim).flatMap(armsOf));
    default: return pattern;
  }
}
function trimStar(of) {
  if (of.k === '0' || of.k === '1') return ONE;
  if (of.k === '*') return of;
  return { k: '*', of: sumOf(distinct(armsOf(of).filter(arm => arm.k !== '1').map(arm => arm.k === '*' ? arm.of : arm))) };
}
/** A star that stands twice in a product adds nothing the second time. */
function trimProduct(factors) {
  if (factors.some(one => one.k === '0')) return ZERO;
  const isAgain = (one, index) => one.k === '*' && factors.findIndex(other => keyOf(other) === keyOf(one)) < index;
  return productOf(factors.filter((one, index) => one.k !== '1' && !isAgain(one, index)));
}
function trimSum(arms) {
  const some = arms.filter(arm => arm.k !== '0'), kept = distinct(some.some(arm => arm.k === '1') ? some.map(folded) : some);
  const stars = kept.filter(arm => arm.k === '*');
  return sumOf(kept.filter(arm => stars.includes(arm) || !stars.some(star => repeats(star.of, arm))));
}
/** Beside nothing, `a.*a` is `*a`. */
function folded(arm) {
  const factors = factorsOf(arm), isOfTheRest = star => keyOf(star.of) === keyOf(productOf(factors.filter(one => one !== star)));
  return factors.find(one => one.k === '*' && isOfTheRest(one)) ?? arm;
}
/** Whether an arm is plainly made of arms of what a star repeats: nothing, one of them, or a product of such. */
function repeats(of, arm) {
  const arms = new Set(armsOf(of).map(keyOf)), isMade = one => arms.has(keyOf(one))
    || one.k === '*' && armsOf(one.of).every(part => arms.has(keyOf(part)));
  return arm.k === '1' || isMade(arm) || factorsOf(arm).every(isMade);
}
