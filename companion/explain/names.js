// Names that are unknown, stand twice or belong elsewhere, and counts of arguments.

import { within } from '../names.js';
import { code, mark, nearest, plural, NAMES } from './say.js';

export function unknownName(context) {
  const { source, place, program, names } = context;
  if (place.a >= source.bytes.length) return withoutMain(program);
  const name = source.slice(place), kind = kindOfName(place, program, names), scope = names.inScope(place.a);
  const known = { function: program.functions.keys(), interface: program.interfaces.keys(), variable: scope.map(one => one.name) }[kind];
  const guess = nearest(name, [...known]), binder = scope.findLast(one => kind === 'variable' && one.name === guess);
  const ended = names.binders.findLast(one => one.name === name);
  const elsewhere = ended && mark(ended, `a ${code(name)} is bound here, and is known in its own body alone`);
  return {
    headline: `${code(name)} isn't known here`,
    marks: [mark(place, 'no such name is in scope', true), binder ? mark(binder, `${code(guess)} is bound here`) : elsewhere],
    hints: [guess ? `did you mean ${code(guess)}?` : hintOfUnknown(name, kind)], doc: NAMES,
  };
}
/** Of what the name at a place has to be one: 'function', 'interface' or 'variable'. */
function kindOfName(place, program, names) {
  const term = names.terms.find(one => one.k === 'call' && one.name.a === place.a || one.k === 'new' && one.of.a === place.a);
  if (term) return term.k === 'call' ? 'function' : 'interface';
  return typeAround(place, program) ? 'interface' : 'variable';
}
function hintOfUnknown(name, kind) {
  if (kind === 'function') return `a function is declared by def ${name}(..): Unit { .. }`;
  if (kind === 'interface') return `an interface is declared by interface ${name} { .. }`;
  return /^(self|this|me)$/.test(name) ? `an actor's mailbox is a parameter like any other: def f(${name}: I?): Unit { .. }`
    : `a name is bound by \`let\`, by a clause, or as a parameter of its function: def f(${name}: ..)`;
}
function withoutMain(program) {
  const guess = nearest('main', [...program.functions.keys()]), meant = guess && program.functions.get(guess).name;
  return {
    headline: 'the program has no `main`', marks: [meant && mark(meant, 'is this meant?', true)],
    notes: ['a program begins at the function `main`, without parameters and of kind Unit'],
    hints: [guess ? `give ${code(guess)} the name \`main\`` : 'def main(): Unit { .. }'], doc: NAMES,
  };
}

export function foreignTag({ source, place, program, names }) {
  const tag = source.slice(place), owner = ownerOf(place, program, names), declared = program.interfaces.get(owner);
  const tags = declared ? [...declared.tags.keys()] : [], guess = nearest(tag, tags);
  const other = [...program.interfaces.values()].find(one => one.tags.has(tag));
  return {
    headline: `${code(owner ?? '?')} has no message ${code(tag)}`,
    marks: [mark(place, '', true), declared && mark(declared.name, `its messages: ${tags.join(', ')}`),
      other && mark(other.tags.get(tag).name, `${other.name.text} has one`)],
    hints: [guess ? `did you mean ${code(guess)}?` : null,
      other && typeAround(place, program) ? `is a mailbox of ${other.name.text} meant?` : null,
      guess ? null : `if ${tag} is to be a message of ${owner}, declare it; each guard for such a mailbox then has to expect it`],
    doc: NAMES,
  };
}
const typesOf = one => one.k === 'def' ? [...one.parameters.map(parameter => parameter.type), one.result]
  : one.messages.flatMap(message => message.payloads);
const typeAround = (place, program) => program.declarations.flatMap(typesOf).find(one => within(place, one));
/** The interface that a tag at this place is taken for one of. */
function ownerOf(place, program, names) {
  const type = typeAround(place, program);
  if (type) return type.interface;
  const send = names.terms.find(term => term.k === 'send' && term.tag.a === place.a);
  const guard = names.terms.find(term => term.k === 'guard'
    && (within(place, term.pattern) || term.clauses.some(clause => clause.tag?.a === place.a)));
  return (send ?? guard)?.target?.kind.interface;
}

// --------------------------------------------------------------------------------------------------------------- arity

export function wrongArity(context) {
  const { source, place, names } = context, name = source.slice(place);
  const call = names.terms.find(term => term.k === 'call' && term.name.a === place.a);
  if (call) return arityOfCall(context, name, call);
  for (const term of names.terms) {
    const clause = term.k === 'guard' ? term.clauses.find(one => one.tag?.a === place.a) : null;
    if (clause || term.k === 'send' && term.tag.a === place.a) return arityOfMessage(context, name, term, clause);
  }
  return {
    headline: '`main` takes no parameters', marks: [mark(place, '', true)], notes: ['nobody calls it: a program begins there'],
    doc: NAMES,
  };
}
const areThere = count => `${count === 1 ? 'is' : 'are'} ${count}`;
function arityOfCall({ place, program }, name, call) {
  const { name: declared, parameters } = program.functions.get(name);
  return {
    headline: `${code(name)} takes ${plural(parameters.length, 'argument')}, and here ${areThere(call.args.length)}`,
    marks: [mark(place, '', true), mark(declared, 'declared here'),
      parameters.length ? mark({ a: parameters[0].a, z: parameters.at(-1).z }, 'its parameters') : null], doc: NAMES,
  };
}
function arityOfMessage({ place, names }, name, term, clause) {
  const message = names.interfaceOf(term)?.tags.get(name), count = clause?.names.length;
  const here = clause ? `${plural(count, 'name')} ${count === 1 ? 'stands' : 'stand'}` : areThere(term.args.length);
  return {
    headline: `${code(name)} brings ${plural(message.payloads.length, 'value')}, and here ${here}`,
    marks: [mark(place, '', true), mark(message, 'declared here')],
    hints: [clause ? 'a clause names each value that the message brings, whether it is used or not' : null], doc: NAMES,
  };
}

// --------------------------------------------------------------------------------------------------------------- twice

export function twice(context) {
  const { program, names } = context;
  const found = program.declarations.map(one => twiceDeclared(context, one)).find(Boolean)
    ?? names.terms.filter(term => term.k === 'guard').map(term => twiceInGuard(context, term)).find(Boolean);
  return found ?? second(context, code(context.source.slice(context.place)), null);
}
function second({ place }, what, first, hints = []) {
  const marks = [mark(place, '', true), first && mark(first, 'the first one is here')];
  return { headline: `${what} stands a second time`, marks, hints, doc: NAMES };
}
function twiceDeclared(context, one) {
  const { place, program } = context, name = context.source.slice(place), here = node => node.a === place.a;
  const before = all => all.find(node => node.text === name && node.a < place.a);
  if (here(one.name)) {
    const all = program.declarations.filter(other => other.k === one.k).map(other => other.name);
    const hints = one.k === 'def' ? ['functions of one name aren\'t told apart by what they take: take another name'] : [];
    return second(context, `the ${one.k === 'def' ? 'function' : 'interface'} ${code(name)}`, before(all), hints);
  }
  const inside = (one.k === 'def' ? one.parameters : one.messages).map(part => part.name);
  if (!inside.some(here)) return null;
  const what = one.k === 'def' ? `the parameter ${code(name)}` : `in ${one.name.text}, the message ${code(name)}`;
  return second(context, what, before(inside));
}
function twiceInGuard(context, guard) {
  const { place } = context, name = context.source.slice(place);
  for (const clause of guard.clauses) {
    if (clause.a === place.a) {
      const first = guard.clauses.find(other => other.k === clause.k && other.tag?.text === clause.tag?.text);
      const hints = clause.tag ? ['one clause takes each such message: choose behind -> by an `if`'] : [];
      return second(context, clause.tag ? `a clause for ${code(clause.tag.text)}` : `the clause ${code(clause.k)}`, first, hints);
    }
    const all = clause.k === 'receive' ? [...clause.names, clause.from] : [];
    if (!all.some(node => node.a === place.a)) continue;
    const first = all.find(node => node.text === name && node.a < place.a);
    const hints = name === '_' ? ['`_` is a name like any other: give each value one of its own, _a and _b'] : [];
    return second(context, `in one clause, the name ${code(name)}`, first, hints);
  }
  return null;
}
