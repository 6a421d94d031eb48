// What is no text of the language: tokens, grammar, and the limits of both.

import { tokenize } from '../parse.js';
import { sizeInBytes } from '../source.js';
import { habitHint } from './habits.js';
import { chapter, code, mark, or, plural, LANGUAGE } from './say.js';

const GRAMMAR = chapter(LANGUAGE, 'Grammar');

/** What can begin with a name alone. */
const NAMED = new Set(['a name', 'a parameter', 'a message', 'an interface', 'a mailbox', 'a type']);

export function syntax({ source, programSource, place, problem }) {
  const { tokens, bad } = tokenize(programSource), end = bad === null && place.a >= tokens.at(-1).a;
  const token = tokens.find(one => one.a <= place.a && place.a < one.z);
  const before = tokens.findLast(one => one.z <= place.a && one.type !== 'end');
  const rest = source.slice({ a: place.a, z: Math.min(place.a + 8, source.bytes.length) }), first = [...rest][0] ?? '';
  const wanted = bad === null && problem?.offset === place.a ? expectation(problem.expected) : null;
  const open = end ? unclosed(tokens) : token && lacking(tokens, token, problem?.expected ?? []);
  const behind = Math.min(place.a + sizeInBytes(first), source.bytes.length);
  const at = end ? before ?? { a: 0, z: 0 } : token ?? { a: place.a, z: behind };
  return {
    headline: headline({ end, bad, first, token }),
    marks: [mark(at, wanted ? `${wanted} expected ${end ? 'behind this' : 'here'}` : bad === null ? '' : 'here', true),
      open && mark(open, `this ${code(open.text)} isn't closed`)],
    hints: [end ? null : hint({ rest, before, token, problem })],
    doc: bad === null ? GRAMMAR : chapter(LANGUAGE, 'Tokens'),
  };
}
const CLOSING = { '(': ')', '[': ']', '{': '}' }, BEGINS = new Set(['def', 'interface']);
/** The innermost opening bracket without its closing one. */
function unclosed(tokens) {
  const open = [];
  for (const token of tokens.filter(one => one.type === 'mark')) {
    if (Object.hasOwn(CLOSING, token.text)) open.push(token);
    else if (open.length && CLOSING[open.at(-1).text] === token.text) open.pop();
  }
  return open.at(-1) ?? null;
}
/** The bracket that should have been closed before a token: a brace where a declaration begins, another where a step or its block ends. */
function lacking(tokens, token, expected) {
  const open = unclosed(tokens.filter(one => one.z <= token.a));
  if (open?.text === '{') return BEGINS.has(token.text) && expected.includes('`}`') ? open : null;
  return ['}', ';'].includes(token.text) ? open : null;
}
function headline({ end, bad, first, token }) {
  if (end) return 'the text ends too early';
  if (bad === null) return `unexpected ${code(token?.text ?? first)}`;
  if (first === '"') return 'this string doesn\'t end, or has a character that may not stand in it';
  return `no token begins with ${code(first)}`;
}
function hint({ rest, before, token, problem }) {
  const expected = problem?.expected ?? [], isName = expected.some(one => NAMED.has(one));
  if (!token && rest.startsWith('"')) return 'a string ends on its own line; in it `\\` stands before `"` and `\\` alone';
  const habit = habitHint({ rest, here: token?.text, before: before?.text, expected });
  if (habit) return habit;
  if (token?.type === 'word' && isName) return `${code(token.text)} is a reserved word, and can't be a name`;
  if (expected.includes('`;`') && token?.type !== 'mark') return 'if another step begins here, a `;` is missing before it';
  return null;
}

/** A part's name stands for the tokens that it can begin with, and operators aren't told. */
const BEGIN = { 'an expression': ['`(`', '`)`'], 'a clause': ['`fail`', '`free`', '`receive`'], 'a pattern': ['`*`', '`(`'] };
const OPERATORS = ['`*`', '`+`', '`-`', '`==`', '`<`', '`.`'];
const MOST_EXPECTED = 4;
/** What could stand there, in few words. */
function expectation(expected) {
  const words = new Set(expected);
  for (const [part, begin] of Object.entries(BEGIN)) if (words.has(part)) begin.forEach(one => words.delete(one));
  for (const one of OPERATORS) if (words.size > 1) words.delete(one);
  return words.size ? or([...words].slice(0, MOST_EXPECTED)) + ' is' : null;
}

// -------------------------------------------------------------------------------------------------------------- limits

const LONGEST_NUMBER = 400;               // digits that are marked
export function tooWide({ source, place }) {
  const digits = /^\d*/.exec(source.slice({ a: place.a, z: Math.min(source.bytes.length, place.a + LONGEST_NUMBER) }))[0];
  return {
    headline: 'this number is too wide', marks: [mark({ a: place.a, z: place.a + digits.length }, '', true)],
    notes: ['an Int goes up to 9223372036854775807'], hints: ['a larger one can be a String, if nothing is computed with it'],
    doc: chapter(LANGUAGE, 'Tokens'),
  };
}
export const tooDeep = ({ place }) => ({
  headline: 'brackets, operators or statements nest too deep here', marks: [mark({ a: place.a, z: place.a + 1 }, '', true)],
  notes: ['there may be 255 open brackets and operators, and 4,095 open statements'],
  hints: ['put a part into a function of its own'], doc: chapter(LANGUAGE, 'Depth'),
});
export const tooLong = ({ source }) => ({
  headline: 'the text is too long',
  notes: [`it has ${plural(source.bytes.length, 'byte')}; a program may have 1,048,576, with a derivation or history 67,108,864`],
  hints: ['a shorter history is that of a run with fewer --steps'], doc: 'README.md',
});
