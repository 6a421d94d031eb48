// Terms and expressions of another kind than is needed: the answer `wrong kind`.

import { isMailbox } from '../names.js';
import { code, mark, NAMES } from './say.js';

const PRINTED = { base: 'Int, a Bool or a String' }, BOOL = { base: 'Bool' }, INT = { base: 'Int' }, UNIT = { base: 'Unit' };

function sayKind(kind) {
  if (isMailbox(kind)) return `a mailbox of ${kind.interface}`;
  switch (kind?.base) {
    case undefined: case '?': return 'of another kind';
    case 'Unit': return 'no value';
    case 'Int': case PRINTED.base: return `an ${kind.base}`;
    default: return `a ${kind.base}`;
  }
}

export function wrongKind({ place, program, names }) {
  const asked = askedOfExpression(program, names, place) ?? askedOfTerm(names, place);
  if (!asked) return wrongMain(place, program);
  const { want, found } = asked, is = `this is ${sayKind(found)}`;
  return {
    headline: want?.base === 'Unit' ? `nothing takes this value: no value is needed here, and ${is}`
      : `${sayKind(want)} is needed here, and ${is}`,
    marks: [mark(place, is, true), asked.place && mark(asked.place, asked.why)],
    notes: [asked.note],
    hints: [hint(asked)],
    doc: NAMES,
  };
}
function hint({ want, found, sequence, place, note, term }) {
  if (found?.base === 'String' && note?.startsWith('`+`')) return 'texts aren\'t joined: print each by itself';
  if (sequence) return 'what is done before a `;` gives no value; to use its value, bind it: let x = .. in';
  const unit = want?.base === 'Unit';
  if (unit && isMailbox(found)) return 'end with what is done with the mailbox: a guard, a call that takes it, or free(..)';
  if (unit && term && term.k !== 'expression') return 'bind what it gives, let x = .. in, and end with print(x), or with ()';
  if (unit) return place ? 'end with ()' : 'print(..) it, or end with ()';
  return hintOfMailbox(want, found) ?? hintOfValue(want, found);
}
function hintOfMailbox(want, found) {
  if (want?.base === 'mailbox') return 'messages go to mailboxes alone: take a parameter such as to: I!, or make one with new[I]';
  if (isMailbox(want)) return isMailbox(found) ? `give a mailbox of ${want.interface}, as new[${want.interface}] makes one` : null;
  return isMailbox(found) ? 'a mailbox is sent to and received from, and is no value to compute with: to learn what an actor knows, send it'
    + ' a mailbox for the answer' : null;
}
function hintOfValue(want, found) {
  if (found?.base === 'Unit')
    return 'a print, a send, `spawn` and `free` give no value: what is to be given stands behind them, print(x); x';
  if (want?.base === 'Bool' && found?.base === 'Int') return 'compare it: x == 0, or 0 < x';
  const texts = new Set([want?.base, found?.base]);
  return texts.has('Int') && texts.has('String') ? 'a number isn\'t made a text, nor a text a number' : null;
}
function wrongMain(place, program) {
  const main = program.functions.get('main');
  return {
    headline: '`main` gives back something other than Unit',
    marks: [mark(place, '', true), main && mark(main.result, 'Unit is needed here')],
    hints: ['print(..) what it comes to'], doc: NAMES,
  };
}

// -------------------------------------------------------------------------------------------- who asks for which kind

const at = place => node => node.a === place.a && node.z === place.z;
const valuesOf = term => term.args ?? (term.k === 'if' ? [term.test] : term.value ? [term.value] : []);

/** Who asks an expression at this place for a kind: {want, found, why, place, note}, or null. */
function askedOfExpression(program, names, place) {
  for (const term of names.terms) {
    const values = valuesOf(term), index = values.findIndex(at(place));
    const inside = values.map(value => askedInOperation(value, at(place))).find(Boolean);
    if (inside) return inside;
    if (index >= 0 && term.k !== 'expression') return askedByTerm(term, index, values[index].kind, program, names);
  }
  return null;
}
function askedInOperation(value, here) {
  if (value.k !== 'op') return null;
  const { left, right, operator } = value;
  if (!here(left) && !here(right)) return askedInOperation(left, here) ?? askedInOperation(right, here);
  const side = here(left) ? left : right;
  if (operator !== '==') return { want: INT, found: side.kind, note: `${code(operator)} takes two Int` };
  if (side === left) return { want: PRINTED, found: side.kind, note: '`==` compares two Int, two Bool or two String' };
  return { want: left.kind, found: side.kind, why: `compared with ${sayKind(left.kind)}`, place: left };
}
function askedByTerm(term, index, found, program, names) {
  switch (term.k) {
    case 'if': return { want: BOOL, found, note: 'the test of an `if` is a Bool' };
    case 'print': return { want: PRINTED, found, note: '`print` takes an Int, a Bool or a String' };
    case 'send': {
      const type = names.interfaceOf(term)?.tags.get(term.tag.text)?.payloads[index];
      return { want: type, found, why: `${term.tag.text} brings ${sayKind(type)}`, place: type };
    }
    case 'call': {
      const parameter = program.functions.get(term.name.text)?.parameters[index];
      return { want: parameter?.type, found, why: `${term.name.text} takes ${sayKind(parameter?.type)}`, place: parameter };
    }
    default: return null;
  }
}

/** The same for a term: what stands around it asks. */
function askedOfTerm(names, place) {
  const term = names.termAt(place), found = term?.kind;
  if (!term) return null;
  if (['send', 'guard', 'free'].includes(term.k) && term.target && !isMailbox(term.target.kind)) {
    const { target } = term;
    return { want: { base: 'mailbox' }, found: target.kind, why: `${code(target.name)} is ${sayKind(target.kind)}`, place: target };
  }
  for (let one = term; one; one = one.up) {
    const asked = one.up ? askedFromAround(one, found) : askedByFunction(one.def, found);
    if (asked !== undefined) return asked && { ...asked, term };
  }
  return null;
}
const askedByFunction = ({ name, result }, found) =>
  ({ want: result, found, why: `${name.text} gives back ${sayKind(result)}`, place: result });
/** Undefined where what stands around asks nothing itself. */
function askedFromAround(term, found) {
  const { up } = term;
  if (up.k === 'spawn') return { want: UNIT, found, note: 'a thread gives no value back' };
  if (up.k === 'let' && up.bound === term) return up.name ? null : { want: UNIT, found, sequence: true };
  const first = up.k === 'if' ? up.then : up.k === 'guard' ? up.clauses.find(clause => clause.body).body : null;
  if (!first || first === term || !isBound(up)) return undefined;
  return { want: first.kind, found, why: `${sayKind(first.kind)}, as the first branch says`, place: first };
}
/** Whether a term's value goes to a named `let`. */
function isBound(term) {
  let one = term;
  while (one.up && !(one.up.k === 'let' && one.up.bound === one) && one.up.k !== 'spawn') one = one.up;
  return one.up?.k === 'let' && one.up.name !== null;
}
