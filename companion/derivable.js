// Words of patterns, as counts of messages, within a bound: words up to a size, or the parts of a given word. Each word has a cheapest
// way to derive it, with the leaves that it is made of. Exact within the bound, and small whatever the program's size.

import { patternParts, tagsOf } from './tree.js';

/** A word is {counts, size, cost, leaves}; `leaves` is a tree of {tag, leaf}, {left, right} and {way, below}. */
export class Bound {
  /** `most` counts at most so many of each tag; `size` of all together. */
  constructor(tags, { most = null, size }) {
    this.tags = tags;
    this.most = most;
    this.size = size;
    this.index = new Map(tags.map((tag, index) => [tag, index]));
    this.empty = { counts: tags.map(() => 0), size: 0, cost: 0, leaves: null };
  }
  allows(counts, size) {
    return size <= this.size && !(this.most && counts.some((count, index) => count > this.most[index]));
  }
  one(tag, leaf) {
    const counts = this.tags.map(each => each === tag ? 1 : 0);
    if (!this.index.has(tag) || !this.allows(counts, 1)) return null;
    return { counts, size: 1, cost: 1, leaves: { tag, leaf } };
  }
  sum(one, other) {
    const counts = one.counts.map((count, index) => count + other.counts[index]), size = one.size + other.size;
    if (!this.allows(counts, size)) return null;
    const leaves = one.leaves && other.leaves ? { left: one.leaves, right: other.leaves } : one.leaves ?? other.leaves;
    return { counts, size, cost: one.cost + other.cost, leaves };
  }
  spell(word) { return this.tags.flatMap((tag, index) => Array(word.counts[index]).fill(tag)); }
}

export const keyOf = word => word.counts.join();
/** Puts a word in, unless it is there at no higher cost; says whether it did. */
function put(words, word) {
  if (!word) return false;
  const key = keyOf(word), before = words.get(key);
  if (before && before.cost <= word.cost) return false;
  words.set(key, word);
  return true;
}

/** The words of a pattern, where variables have these values: a map from keys to words. */
export function wordsWithin(pattern, values, bound) {
  const words = new Map();
  switch (pattern.k) {
    case '0': break;
    case '1': put(words, pattern.leaf ? { ...bound.empty, leaves: { tag: null, leaf: pattern.leaf } } : bound.empty); break;
    case 'tag': put(words, bound.one(pattern.tag, pattern.leaf ?? placed(pattern))); break;
    case '$': for (const word of values.get(pattern.variable)?.values() ?? []) put(words, byWayOf(word, pattern.leaf)); break;
    case '+':
      for (const part of patternParts(pattern)) for (const word of wordsWithin(part, values, bound).values()) put(words, word);
      break;
    case '.': combine(words, wordsWithin(pattern.left, values, bound), () => wordsWithin(pattern.right, values, bound), bound); break;
    case '*': repeat(words, wordsWithin(pattern.of, values, bound), bound); break;
  }
  return words;
}
const placed = ({ a, z }) => a === undefined ? null : { how: 'pattern', a, z };
const byWayOf = (word, use) =>
  ({ ...word, cost: word.cost + 1, leaves: use && word.leaves ? { way: use, below: word.leaves } : word.leaves });
function combine(words, left, right, bound) {
  if (!left.size) return;
  const others = [...right().values()];
  for (const one of left.values()) for (const other of others) put(words, bound.sum(one, other));
}
function repeat(words, once, bound) {
  const more = [...once.values()].filter(word => word.size > 0), open = [bound.empty];
  put(words, bound.empty);
  while (open.length) {
    const word = open.shift();
    for (const one of more) {
      const next = bound.sum(word, one);
      if (put(words, next)) open.push(next);
    }
  }
}

const variablesIn = pattern => pattern.k === '$' ? [pattern.variable] : patternParts(pattern).flatMap(variablesIn);

/** The constraints that a pattern stands on: those with one of its variables on the right, and so on. */
export function below(pattern, constraints) {
  const byVariable = new Map();
  for (const one of constraints) {
    if (one.right.k !== '$') continue;
    if (!byVariable.has(one.right.variable)) byVariable.set(one.right.variable, []);
    byVariable.get(one.right.variable).push(one);
  }
  const seen = new Set(), found = [], open = variablesIn(pattern);
  while (open.length) {
    const variable = open.pop();
    if (seen.has(variable)) continue;
    seen.add(variable);
    for (const one of byVariable.get(variable) ?? []) {
      found.push(one);
      open.push(...variablesIn(one.left));
    }
  }
  return found;
}

/** The least values, within a bound, of the variables that a pattern stands on; null where time is up. */
export function leastValues(pattern, constraints, bound, until) {
  const relevant = below(pattern, constraints), values = new Map(relevant.map(one => [one.right.variable, new Map()]));
  for (let changed = true; changed;) {
    changed = false;
    for (const { left, right } of relevant) {
      if (Date.now() > until) return null;
      const value = values.get(right.variable);
      for (const word of wordsWithin(left, values, bound).values()) changed = put(value, byWayOf(word, right.leaf)) || changed;
    }
  }
  return values;
}

/** The leaves of a word, each {tag, leaf, ways}: `ways` are the uses by which it came, the outermost call first. */
export function leavesOf(word) {
  const leaves = [], open = word.leaves ? [{ tree: word.leaves, ways: [] }] : [];
  while (open.length) {
    const { tree, ways } = open.pop();
    if (tree.left) open.push({ tree: tree.right, ways }, { tree: tree.left, ways });
    else if (tree.way) open.push({ tree: tree.below, ways: [...ways, tree.way] });
    else leaves.push({ ...tree, ways });
  }
  return leaves;
}

/** The words of a written pattern up to a size, smallest first, as lists of tags. */
export function smallWords(pattern, size) {
  const bound = new Bound([...new Set(tagsOf(pattern))], { size });
  const words = [...wordsWithin(pattern, new Map(), bound).values()];
  return words.sort((one, other) => one.size - other.size).map(word => bound.spell(word));
}
