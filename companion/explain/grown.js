// Patterns that can't be found or come out too large: `unusable` and `too large`.

import { constraintsOf, tagsOf } from '../words.js';
import { below } from '../derivable.js';
import { sizesOf } from '../sizes.js';
import { patternParts } from '../tree.js';
import { chapter, code, did, mark, plural, LANGUAGE } from './say.js';

const answers = kind => `${chapter(LANGUAGE, 'What `check` answers, and what to write then')}: ${code(kind)}`;
const MOST_USES = 5;

/** A type whose pattern is left out: the binder that has it, if it is a parameter's. */
const binderOf = (type, names) => names.binders.find(one => one.what === 'parameter' && one.kind.a === type.a);

export function unusable({ place, program, names }) {
  const binder = binderOf(place, names), type = binder?.kind ?? program.declarations.find(one => one.result?.a === place.a)?.result;
  const uses = binder ? names.usesOf(binder) : [], pattern = repeated(type, program, names);
  return {
    headline: binder ? `no end is seen to what is sent to ${code(binder.name)}, so its pattern can't be found`
      : 'no end is seen to what this function sends before it gives its result',
    marks: [mark(place, 'the pattern of this right is left out', true), ...uses.slice(0, MOST_USES).map(use => mark(use, did(use)))],
    notes: ['this is no fault of the program'],
    hints: [`write the pattern: ${binder ? `${binder.name}: ` : ''}${type?.interface ?? ''}!${pattern}`],
    doc: answers('unusable'),
  };
}
/** Any number of the messages that may go to a right. */
function repeated(type, program, names) {
  const { constraints, opened } = constraintsOf(program, names), variable = opened.get(type);
  const tags = variable ? [...new Set(below(variable, constraints).flatMap(one => tagsOf(one.left)))] : [];
  if (!tags.length) return '1';
  return tags.length === 1 ? `*${tags[0]}` : `*(${tags.join(' + ')})`;
}

const MOST_SHOWN = 4, LITTLE = 16;        // marks; messages
/** The pattern that grew, and what it grew from, a call after the other. */
export function tooLarge(context) {
  const { verdict, program, names } = context, sizes = sizesOf(program, names, verdict.interface);
  const largest = sizes.find(({ from }) => from.type), chain = largest ? chainFrom(largest, sizes) : [];
  return {
    headline: `the patterns for mailboxes of ${code(verdict.interface)} come out too large to count`,
    marks: chain.length ? marksOf(chain, names) : writtenMarks(context),
    notes: ['65,536 parts, 4,096 alternatives or a counterexample of 4,096 steps are counted, and no more'],
    hints: [`write a pattern in a signature in between${inBetween(chain, context)}: the count begins anew there; the guard then has to`
      + ' expect as much', 'a star and a recursive function instead of many messages in a row'],
    doc: answers('too large'),
  };
}
function marksOf(chain, names) {
  const calls = chain[0].parts.filter(({ leaf }) => leaf.leaf?.how === 'call').slice(0, 2);
  return [...chain.slice(0, MOST_SHOWN).map((one, index) => markOf(one, names, index === 0)),
    ...calls.map(({ leaf, size }) => mark(leaf.leaf, `by way of this call, ${plural(size, 'message')}`))];
}
/** Where no pattern that is left out is large, one that is written is. */
function writtenMarks({ verdict, program, names }) {
  const declared = program.interfaces.get(verdict.interface);
  const size = pattern => patternParts(pattern).reduce((sum, one) => sum + size(one), 1);
  const guards = names.terms.filter(term => term.k === 'guard' && term.target?.kind?.interface === verdict.interface);
  const [largest] = guards.sort((one, other) => size(other.pattern) - size(one.pattern));
  return [declared && mark(declared.name, `it has ${plural(declared.messages.length, 'message')}`, true),
    largest && mark(largest.pattern, 'the largest pattern that is written')];
}
function inBetween(chain, { program, names }) {
  const middle = chain[Math.floor(chain.length / 2)], type = middle?.from.type, binder = type && binderOf(type, names);
  return binder ? `, in ${binder.of.name.text}, ${binder.name}: ${type.interface}${type.mark}${repeated(type, program, names)} say` : '';
}
/** The largest of what each is made of, down to a little. */
function chainFrom(largest, sizes) {
  const byVariable = new Map(sizes.map(one => [one.variable, one])), chain = [];
  for (let one = largest; one && one.size >= LITTLE && !chain.includes(one);) {
    if (one.from.type) chain.push(one);
    const [part] = [...one.parts].sort((a, b) => b.size - a.size);
    one = part && byVariable.get(part.variable);
  }
  return chain;
}
function markOf({ from, size }, names, primary) {
  const binder = binderOf(from.type, names);
  return mark(binder ?? from.type, `the pattern that is left out here comes to ${plural(size, 'message')}`, primary);
}
