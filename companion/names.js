// Who is meant by each name: binders, their uses with roles, the kinds of terms, and which term stands at a place.
// Works on any tree; what isn't declared is left without a binder, so that refused programs can be explained too.

const UNIT = { base: 'Unit' }, BOOL = { base: 'Bool' }, INT = { base: 'Int' };
export const UNKNOWN = { base: '?' };

/** A `kind` is {base} or {base: null, interface, mark, pattern}; a mailbox that was just made has no mark. */
export const isMailbox = kind => kind != null && kind.base === null;
const mailboxOf = (name, mark) => ({ base: null, interface: name, mark, pattern: null });

export const within = (inner, outer) => outer.a <= inner.a && inner.z <= outer.z;

/**
 * Binders: {id, name, a, z, kind, what: 'parameter'|'let'|'payload'|'from', of: the def, scope: {a, z}} and besides
 *   `parameter` (the node), `term` (of a let: what is bound), `guard`, `clause`, `tag`, `before` (of a from name: the guarded binder).
 * Uses: {binder, how, a, z, term, mark, second} and besides `tag` or `callee`, `parameter`, `index`. `how` is one of
 *   'send' (it is the target), 'payload', 'call', 'guard', 'free', 'value' (it is given back), 'read' (a number or text).
 * References: {a, z, to, what: 'interface'|'function'|'message'}, `to` being the declaration's node, if there is one.
 * Terms get `up`, `def`, `kind`, `second`, and where they have one `target` and `binder`; clauses `binders`, `fromBinder`, `own` and
 * `message`.
 */
export function resolve(program) {
  const walker = new Walker(program);
  for (const one of program.declarations) if (one.k === 'def') walker.definition(one); else walker.interface(one);
  return new Names(program, walker);
}

const PLACES = 2 ** 26;                   // more than any text has bytes
const placeOf = ({ a, z }) => a * PLACES + z;
/** The first of each place. */
function byPlace(nodes) {
  const table = new Map();
  for (const one of nodes) {
    const place = placeOf(one);
    if (!table.has(place)) table.set(place, one);
  }
  return table;
}

class Names {
  constructor(program, { binders, uses, terms, references }) {
    Object.assign(this, { program, binders, uses, terms, references });
    this.byBinder = new Map(binders.map(binder => [binder, []]));
    for (const use of uses) this.byBinder.get(use.binder).push(use);
    this.bindersAt = byPlace(binders);
    this.usesAt = byPlace(uses);
    this.termsAt = byPlace(terms);
  }

  usesOf(binder) { return this.byBinder.get(binder) ?? []; }
  binderAt(place) { return this.bindersAt.get(placeOf(place)); }
  useAt(place) { return this.usesAt.get(placeOf(place)); }
  /** The outermost term at just this place. */
  termAt(place) { return this.termsAt.get(placeOf(place)); }
  /** The innermost term around an offset. */
  termAround(offset) {
    let best = null;
    for (const term of this.terms) {
      const closer = !best || term.z - term.a <= best.z - best.a;
      if (term.a <= offset && offset <= term.z && closer) best = term;
    }
    return best;
  }
  inScope(offset) { return this.binders.filter(binder => binder.scope.a <= offset && offset <= binder.scope.z); }
  /** The `let` whose bound part is this term. */
  letOf(term) { return this.terms.find(one => one.k === 'let' && one.bound === term); }
  nameOfLet(term) { return this.binders.find(binder => binder.what === 'let' && binder.term === term); }
  guardOf(binder) { return this.usesOf(binder).find(use => use.how === 'guard' || use.how === 'free')?.term; }
  /** The interface that a send or guard at this term is about. */
  interfaceOf(term) {
    const kind = term.target?.kind;
    return isMailbox(kind) ? this.program.interfaces.get(kind.interface) : undefined;
  }
}

class Walker {
  constructor(program) {
    Object.assign(this, { program, binders: [], uses: [], terms: [], references: [], scopes: new Map() });
  }

  // -------------------------------------------------------------------------------------------------------------- names

  bind(name, kind, what, scope, rest) {
    const binder = { id: this.binders.length, name: name.text, a: name.a, z: name.z, kind, what, of: this.of,
      scope: { a: scope.a, z: scope.z }, ...rest };
    this.binders.push(binder);
    if (!this.scopes.has(binder.name)) this.scopes.set(binder.name, []);
    this.scopes.get(binder.name).push(binder);
    return binder;
  }
  unbind(binders) { for (const binder of [...binders].reverse()) this.scopes.get(binder.name).pop(); }
  look(name) { return this.scopes.get(name)?.at(-1); }
  use(binder, how, { a, z }, term, rest) {
    if (binder) this.uses.push({ binder, how, a, z, term, ...rest });
  }
  refer({ a, z }, to, what) { this.references.push({ a, z, to, what }); }
  referType(type) {
    if (!isMailbox(type)) return;
    const declared = this.program.interfaces.get(type.interface);
    this.refer(type.of, declared, 'interface');
    if (type.pattern) this.referTags(type.pattern, declared);
  }
  referTags(pattern, declared) {
    if (pattern.k === 'tag') this.refer(pattern, declared?.tags.get(pattern.tag), 'message');
    for (const part of [pattern.of, pattern.left, pattern.right]) if (part) this.referTags(part, declared);
  }

  // ------------------------------------------------------------------------------------------------------- declarations

  interface(one) { for (const message of one.messages) message.payloads.forEach(type => this.referType(type)); }
  definition(def) {
    this.of = def;
    for (const { type } of def.parameters) this.referType(type);
    this.referType(def.result);
    def.binders = def.parameters.map(parameter => this.bind(parameter.name, parameter.type, 'parameter', def.body, { parameter }));
    this.term(def.body, { wanted: def.result, second: false, up: null });
    this.unbind(def.binders);
  }

  // -------------------------------------------------------------------------------------------------------------- terms

  /** `wanted` is the kind that is asked for; `second` says whether the term stands in a spawn. Gives the term's kind. */
  term(term, where) {
    const bound = [];
    let { up } = where;
    for (;;) {
      Object.assign(term, { up, def: this.of, second: where.second });
      this.terms.push(term);
      if (term.k !== 'let') break;
      const kind = this.term(term.bound, { wanted: null, second: where.second, up: term });
      if (term.name) bound.push(term.binder = this.bind(term.name, kind, 'let', term.body, { term: term.bound }));
      up = term;
      term = term.body;
    }
    const kind = this.simple(term, where);
    for (let one = term; one && one !== where.up; one = one.up) one.kind = kind;
    this.unbind(bound);
    return kind;
  }
  simple(term, where) {
    const below = { wanted: where.wanted, second: where.second, up: term };
    switch (term.k) {
      case 'expression': return this.value(term, where);
      case 'print': this.expression(term.value, term); return UNIT;
      case 'new': this.refer(term.of, this.program.interfaces.get(term.of.text), 'interface'); return mailboxOf(term.of.text, null);
      case 'spawn': this.term(term.body, { wanted: null, second: true, up: term }); return UNIT;
      case 'if': return this.choice(term, below);
      case 'free': this.target(term, 'free', { mark: '?', second: where.second }); return UNIT;
      case 'send': return this.send(term);
      case 'call': return this.call(term, where.second);
      case 'guard': return this.guard(term, below);
    }
  }
  value(term, { wanted, second }) {
    const binder = term.value.k === 'variable' && this.look(term.value.name);
    if (!binder || !isMailbox(binder.kind)) return this.expression(term.value, term);
    const { mark } = isMailbox(wanted) ? wanted : binder.kind;
    this.use(binder, 'value', term, term, { mark, second });
    return term.value.kind = binder.kind;
  }
  choice(term, below) {
    this.expression(term.test, term);
    const then = this.term(term.then, below), other = this.term(term.other, below);
    return then.base === '?' ? other : then;
  }
  target(term, how, rest) {
    term.target = this.look(term.mailbox.text);
    this.use(term.target, how, term.mailbox, term, rest);
  }
  send(term) {
    const tag = term.tag.text;
    this.target(term, 'send', { mark: '!', second: true, tag });
    const message = this.message(term.target, term.tag);
    term.args.forEach((arg, index) =>
      this.argument(arg, term, { how: 'payload', mark: message?.payloads[index]?.mark, tag, second: true, index }));
    return UNIT;
  }
  call(term, second) {
    const callee = this.program.functions.get(term.name.text);
    this.refer(term.name, callee, 'function');
    term.args.forEach((arg, index) => {
      const parameter = callee?.parameters[index], mark = parameter?.type.mark;
      this.argument(arg, term, { how: 'call', mark, callee: term.name.text, parameter, second: second || mark === '!', index });
    });
    return callee?.result ?? UNKNOWN;
  }
  message(binder, tag) {
    const declared = isMailbox(binder?.kind) ? this.program.interfaces.get(binder.kind.interface) : undefined;
    const message = declared?.tags.get(tag.text);
    this.refer(tag, message, 'message');
    return message;
  }
  argument(arg, term, { how, ...rest }) {
    const binder = arg.k === 'variable' ? this.look(arg.name) : null;
    if (!isMailbox(binder?.kind)) return this.expression(arg, term);
    this.use(binder, how, arg, term, rest);
    arg.kind = binder.kind;
  }

  // ------------------------------------------------------------------------------------------------------------- guards

  guard(term, below) {
    this.target(term, 'guard', { mark: '?', second: below.second });
    this.referTags(term.pattern, this.program.interfaces.get(term.target?.kind?.interface));
    let kind = null;
    for (const clause of term.clauses) {
      if (clause.k === 'fail') continue;
      const bound = clause.k === 'receive' ? this.received(clause, term) : [];
      Object.assign(clause, { own: new Set(bound), binders: bound.slice(0, -1), fromBinder: bound.at(-1) });
      const found = this.term(clause.body, below);
      if (kind === null || kind.base === '?') kind = found;
      this.unbind(bound);
    }
    return kind ?? UNIT;
  }
  /** The names of a clause: those of the payload, and then the one behind `from`. */
  received(clause, guard) {
    const message = clause.message = this.message(guard.target, clause.tag), rest = { guard, clause, tag: clause.tag.text };
    const payloads = clause.names.map((name, index) =>
      this.bind(name, message?.payloads[index] ?? UNKNOWN, 'payload', clause.body, { ...rest, index }));
    const kind = isMailbox(guard.target?.kind) ? mailboxOf(guard.target.kind.interface, '?') : UNKNOWN;
    return [...payloads, this.bind(clause.from, kind, 'from', clause.body, { ...rest, before: guard.target })];
  }

  // -------------------------------------------------------------------------------------------------------- expressions

  expression(value, term) {
    switch (value.k) {
      case 'literal': return value.kind = { base: value.base };
      case 'variable': {
        const binder = this.look(value.name);
        this.use(binder, 'read', value, term, {});
        return value.kind = binder?.kind ?? UNKNOWN;
      }
      case 'op':
        this.expression(value.left, term);
        this.expression(value.right, term);
        return value.kind = value.operator === '==' || value.operator === '<' ? BOOL : INT;
    }
  }
}
