// Which variables are free in a term, as binders, in the order in which they are met.

export class Free {
  /** `binderAt` gives the binder of the variable that stands at an offset. */
  constructor(binderAt) { this.binderAt = binderAt; this.known = new Map(); }

  of(term) {
    if (!this.known.has(term)) this.find(term);
    return this.known.get(term);
  }

  /** Lets in a row by a loop, from the last: there may be thousands. */
  find(term) {
    const lets = [];
    while (term.k === 'let' && !this.known.has(term)) { lets.push(term); term = term.body; }
    if (!this.known.has(term)) this.known.set(term, this.simple(term));
    for (const one of lets.reverse())
      this.known.set(one, union(this.of(one.bound), without(this.of(one.body), one.binder)));
  }

  simple(term) {
    switch (term.k) {
      case 'expression': case 'print': return this.expression(term.value);
      case 'new': return new Set();
      case 'spawn': return this.of(term.body);
      case 'if': return union(this.expression(term.test), this.of(term.then), this.of(term.other));
      case 'free': return new Set([term.target]);
      case 'send': return union([term.target], ...term.args.map(arg => this.expression(arg)));
      case 'call': return union(...term.args.map(arg => this.expression(arg)));
      case 'guard': return union([term.target], ...term.clauses.map(clause => this.clause(clause)));
    }
  }
  clause(clause) {
    if (clause.k === 'fail') return new Set();
    return without(this.of(clause.body), ...(clause.binders ?? []), clause.fromBinder);
  }

  expression(value) {
    switch (value.k) {
      case 'literal': return new Set();
      case 'variable': return new Set([this.binderAt(value.a)]);
      case 'op': return union(this.expression(value.left), this.expression(value.right));
    }
  }
}

function union(...sets) {
  const all = new Set();
  for (const set of sets) for (const one of set) all.add(one);
  return all;
}
function without(set, ...left) {
  const rest = new Set(set);
  for (const one of left) rest.delete(one);
  return rest;
}
