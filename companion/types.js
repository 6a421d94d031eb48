// The patterns that inference found, beside the signatures that leave them out, in few words.

import { parsePattern, spellPattern, spellType } from './parse.js';
import { openTypes } from './words.js';
import { simplify } from './simplify.js';

/** The value of each pattern variable of a derivation, by its number: {interface, pattern}, and of a grid {.., points}. */
export function readVariables(derivation, program) {
  const values = [];
  for (const [, number, name, value] of derivation.matchAll(/^var (\d+) (\S+) (.*)$/gm)) {
    const read = value.startsWith('@') ? fromGrid(value, program.interfaces.get(name)) : { pattern: parsePattern(value) };
    values[Number(number)] = { interface: name, ...read };
  }
  return values;
}
/** A grid's points are counts of all tags; a count that is the bound stands for as many or more. */
function fromGrid(value, declared) {
  const [bound, ...points] = value.slice(1).split(' '), tags = [...declared.tags.keys()].map(tag => ({ k: 'tag', tag }));
  const repeated = (count, tag) => [...Array(count).fill(tag), ...count === Number(bound) ? [{ k: '*', of: tag }] : []];
  const arms = points.map(point => {
    const factors = point.split(',').flatMap((count, index) => repeated(Number(count), tags[index]));
    return factors.length ? factors.reduce((left, right) => ({ k: '.', left, right })) : { k: '1' };
  });
  return { pattern: arms.reduce((left, right) => ({ k: '+', left, right })), points: points.length };
}

/** Spells a type of the program as parts {text, found}: `found` says that the pattern was left out there. */
export function speller(program, derivation) {
  const values = readVariables(derivation, program), numbers = new Map(openTypes(program).map((type, index) => [type, index + 1]));
  return type => {
    const value = numbers.has(type) ? values[numbers.get(type)] : null;
    if (!value) return [given(spellType(type))];
    const simple = simplify(value.pattern), text = spellPattern(simple);
    return [given(type.interface + type.mark), { text: simple.k === '+' ? `(${text})` : text, found: true }];
  };
}
/** For each function the parts of its signature. */
export function signatures(program, derivation) {
  const spell = speller(program, derivation);
  const parameter = ({ name, type }, index) => [given(`${index ? ', ' : ''}${name.text}: `), ...spell(type)];
  return program.declarations.filter(one => one.k === 'def')
    .map(def => [given(`def ${def.name.text}(`), ...def.parameters.flatMap(parameter), given('): '), ...spell(def.result)]);
}
const given = text => ({ text, found: false });

const LONGEST = 160;                      // columns of a found pattern
/** The same as text, a function a line. Long patterns are cut. */
export function types(program, derivation, { most = LONGEST, paint = text => text } = {}) {
  const cut = text => text.length > most ? text.slice(0, most) + ' ..' : text;
  const line = parts => parts.map(({ text, found }) => found ? paint(cut(text)) : text).join('');
  return signatures(program, derivation).map(line).join('\n') + '\n';
}
