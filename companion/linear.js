// A pattern as linear sets: counts of messages, each a base and periods that may be added any number of times. So it can be seen which
// part covers which other part, whatever the order and the brackets.

import { patternParts, tagsOf } from './tree.js';

const MOST_SETS = 40, MOST_ARMS = 8;      // that are looked at; that a pattern in few words has
const MOST_PRODUCTS = 4 * MOST_SETS, MOST_MIXED = 4;
const ONE = { k: '1' }, ZERO = { k: '0' };
const product = (left, right) => ({ k: '.', left, right });
const sum = (left, right) => ({ k: '+', left, right });

/** The same words as a sum of products of messages and stars; null where that takes too many sets, or a variable is in the pattern. */
export function closed(pattern) {
  const tags = [...new Set(tagsOf(pattern))], sets = setsOf(pattern, tags);
  if (!sets || sets.length > MOST_ARMS) return null;
  if (!sets.length) return ZERO;
  return sets.sort((one, other) => size(one.base) - size(other.base)).map(set => spelled(set, tags)).reduce(sum);
}
function spelled({ base, periods }, tags) {
  const word = counts => counts.flatMap((count, index) => Array(count).fill({ k: 'tag', tag: tags[index] }));
  const singleFirst = [...periods].sort((one, other) => (size(other) === 1) - (size(one) === 1));
  const factors = [...word(base), ...singleFirst.map(period => ({ k: '*', of: word(period).reduce(product) }))];
  return factors.length ? factors.reduce(product) : ONE;
}

// ---------------------------------------------------------------------------------------------------------------- counts

const size = counts => counts.reduce((all, one) => all + one, 0);
const add = (one, other) => one.map((count, index) => count + other[index]);
const minus = (one, other) => one.map((count, index) => count - other[index]);
const isZero = counts => counts.every(count => count === 0);
const same = (one, other) => one.every((count, index) => count === other[index]);
const lies = (one, other) => one.every((count, index) => count <= other[index]);
/** Whether counts are a sum of periods. */
function spans(periods, counts) {
  return isZero(counts) || periods.some(period => !isZero(period) && lies(period, counts) && spans(periods, minus(counts, period)));
}

// ------------------------------------------------------------------------------------------------------------------ sets

const covers = (one, other) => lies(one.base, other.base) && spans(one.periods, minus(other.base, one.base))
  && other.periods.every(period => spans(one.periods, period));
/** Without periods that are sums of others. */
function lean({ base, periods }) {
  let kept = periods.filter((period, index) => !isZero(period) && periods.findIndex(one => same(one, period)) === index);
  for (const period of [...kept]) {
    const rest = kept.filter(one => one !== period);
    if (spans(rest, period)) kept = rest;
  }
  return { base, periods: kept };
}
/** Leaves out what another covers, and joins `b` and `b.q.*q` to `b.*q`. */
function fewer(sets) {
  sets = sets.map(lean);
  for (;;) {
    sets = sets.filter((one, index) => !sets.some((other, at) => at !== index && covers(other, one)
      && !(covers(one, other) && at > index)));
    const pair = joinable(sets);
    if (!pair) return sets.length > MOST_SETS ? null : sets;
    const { low, high } = pair;
    sets = [...sets.filter(one => one !== low && one !== high), lean({ base: low.base, periods: high.periods })];
  }
}
function joinable(sets) {
  for (const low of sets) for (const high of sets) for (const q of high.periods) {
    const follows = low !== high && same(add(low.base, q), high.base);
    if (follows && high.periods.every(period => period === q || spans(low.periods, period))
      && low.periods.every(period => spans(high.periods, period))) return { low, high };
  }
  return null;
}

function setsOf(pattern, tags) {
  const none = tags.map(() => 0);
  switch (pattern.k) {
    case '0': return [];
    case '1': return [{ base: none, periods: [] }];
    case 'tag': return [{ base: none.map((_, index) => tags[index] === pattern.tag ? 1 : 0), periods: [] }];
    case '*': return starOf(setsOf(pattern.of, tags), none);
    case '$': return null;
    default: {
      const [left, right] = patternParts(pattern).map(part => setsOf(part, tags));
      if (!left || !right) return null;
      return pattern.k === '+' ? fewer([...left, ...right]) : productOf(left, right);
    }
  }
}
function productOf(left, right) {
  if (left.length * right.length > MOST_PRODUCTS) return null;
  const both = (one, other) => ({ base: add(one.base, other.base), periods: [...one.periods, ...other.periods] });
  return fewer(left.flatMap(one => right.map(other => both(one, other))));
}
/** What is repeated as a whole is a period; a base whose periods aren't has to be there, if they are. */
function starOf(sets, none) {
  if (!sets) return null;
  const always = sets.flatMap(one => isZero(one.base) ? one.periods : one.periods.length ? [] : [one.base]);
  const isMixed = one => !isZero(one.base) && !one.periods.every(period => spans(always, period)), mixed = sets.filter(isMixed);
  for (const one of sets) if (!isZero(one.base) && !mixed.includes(one)) always.push(one.base);
  return mixed.length > MOST_MIXED ? null : fewer(subsetsOf(mixed).map(taken => ({
    base: taken.reduce((counts, one) => add(counts, one.base), none),
    periods: [...always, ...taken.flatMap(one => [one.base, ...one.periods])],
  })));
}
const subsetsOf = all => all.reduce((subsets, one) => [...subsets, ...subsets.map(subset => [...subset, one])], [[]]);
