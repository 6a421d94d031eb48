// What may come in all, as one pattern: the constraints' variables put in, where no function calls itself on the way.

import { simplify } from './simplify.js';

const MOST_NODES = 200;

/** The pattern with all variables replaced by what lies below them, simplified; null where that has no end or is large. */
export function expanded(pattern, constraints) {
  const expansion = new Expansion(constraints), found = expansion.of(pattern, []);
  return found && expansion.nodes <= MOST_NODES ? simplify(found) : null;
}

class Expansion {
  constructor(constraints) {
    this.constraints = constraints;
    this.nodes = 0;
  }
  of(pattern, above) {
    if (++this.nodes > MOST_NODES) return null;
    switch (pattern.k) {
      case '$': return above.includes(pattern.variable) ? null : this.variable(pattern.variable, [...above, pattern.variable]);
      case '*': {
        const of = this.of(pattern.of, above);
        return of && { k: '*', of };
      }
      case '+': case '.': {
        const left = this.of(pattern.left, above), right = left && this.of(pattern.right, above);
        return right && { k: pattern.k, left, right };
      }
      default: return { k: pattern.k, tag: pattern.tag };
    }
  }
  variable(variable, above) {
    const lower = this.constraints.filter(one => one.right.k === '$' && one.right.variable === variable);
    const arms = lower.map(one => this.of(one.left, above));
    if (arms.some(one => one === null)) return null;
    return arms.length ? arms.reduce((left, right) => ({ k: '+', left, right })) : { k: '0' };
  }
}
