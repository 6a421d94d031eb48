// How many messages the patterns of an interface name once all that is called is put in: where `pat` says `too large`, this shows
// which one grew, and by whom. An estimate for people: recursion is counted once, and nothing is simplified.

import { constraintsOf } from './constraints.js';
import { patternParts } from './tree.js';

const leavesIn = pattern => ['tag', '$'].includes(pattern.k) ? [pattern] : patternParts(pattern).flatMap(leavesIn);

/** {variable, from, size, parts} of each variable, largest first; `parts` are its leaves that are variables: {leaf, size, variable}. */
export function sizesOf(program, names, interfaceName) {
  const { constraints, variables } = constraintsOf(program, names), sizer = new Sizer(constraints);
  const isOfIt = from => (from.type?.interface ?? from.binder?.kind.interface) === interfaceName;
  return variables.map((from, index) => ({ variable: index + 1, from })).filter(({ from }) => isOfIt(from))
    .map(one => ({ ...one, ...sizer.of(one.variable) })).sort((one, other) => other.size - one.size);
}

class Sizer {
  constructor(constraints) {
    this.lefts = new Map();
    for (const { left, right } of constraints) if (right.k === '$')
      this.lefts.set(right.variable, [...this.lefts.get(right.variable) ?? [], ...leavesIn(left)]);
    this.found = new Map();
  }
  of(variable) {
    if (!this.found.has(variable)) {
      this.found.set(variable, { size: 1, parts: [] });          // for what calls itself
      const parts = (this.lefts.get(variable) ?? []).map(leaf => this.part(leaf));
      this.found.set(variable, { size: parts.reduce((sum, part) => sum + part.size, 0), parts: parts.filter(part => part.variable) });
    }
    return this.found.get(variable);
  }
  part(leaf) {
    return leaf.k === 'tag' ? { leaf, size: 1, variable: null } : { leaf, size: this.of(leaf.variable).size, variable: leaf.variable };
  }
}
