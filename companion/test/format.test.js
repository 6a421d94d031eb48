import { test } from 'node:test';
import assert from 'node:assert/strict';
import { parse, tokenize, Source } from '../parse.js';
import { format } from '../format.js';
import { isReadable, madeAtRandom, pat, programs } from './programs.js';

const made = [...madeAtRandom({ seed: 3, count: 50 }), ...madeAtRandom({ seed: 4, count: 50, change: 'any' })];
const readable = [...programs, ...made].filter(isReadable);
const commentsOf = source => tokenize(source).tokens.flatMap(token => token.comments.map(comment => comment.text)).join('\n');
const canonical = bytes => pat(['print'], bytes);

/** The program with its tokens on as few lines as there can be, and with one on each. */
function laidOut(source, between) {
  const withComments = token => [...token.comments.map(({ text }) => text + '\n'), token.text].join('');
  return tokenize(source).tokens.map(withComments).join(between);
}

function assertKept(source, name, options) {
  const once = format(parse(source), options), again = new Source(once);
  const before = canonical(source.bytes), after = canonical(again.bytes);
  assert.equal(format(parse(again), options), once, `${name} isn't stable`);
  assert.equal(commentsOf(again), commentsOf(source), name);
  assert.equal(after.status, before.status, name);
  if (before.status === 0) assert.equal(after.text, before.text, name);
  return once;
}

test('what is formatted has the same canonical text and comments, and stays', () => {
  for (const { name, bytes } of readable) assertKept(new Source(bytes), name);
});
test('so has what stood on a line, and what stood a token a line', () => {
  for (const { name, bytes } of readable) for (const between of [' ', '\n'])
    assertKept(new Source(laidOut(new Source(bytes), between)), name);
});
test('in narrow columns too, and no line is longer but for a piece that can\'t be broken', () => {
  for (const { name, bytes } of programs.filter(isReadable)) {
    const once = assertKept(new Source(bytes), name, { width: 60 });
    const long = once.split('\n').filter(line => line.length > 60 && !line.includes('//'));
    assert.ok(long.length <= 2, `${name}:\n${long.join('\n')}`);
  }
});
test('the examples are laid out as the formatter does it', () => {
  for (const { name, bytes } of programs.filter(one => one.name.startsWith('examples/')))
    assert.equal(format(parse(new Source(bytes))), bytes.toString(), name);
});
test('calls, patterns and sums that are long are broken between their outermost parts', () => {
  const sum = `number + ${'number * 2 + '.repeat(12)}number`, list = `${'number, '.repeat(20)}number`;
  const text = `interface I { m(Int) } def main(): Unit { let number = 1 in print(${sum}); called(${list}) }`;
  assert.equal(format(parse(text)), `interface I { m(Int) }
def main(): Unit {
    let number = 1 in
    print(number + number * 2 + number * 2 + number * 2 + number * 2 + number * 2 + number * 2 + number * 2 +
        number * 2 + number * 2 + number * 2 + number * 2 + number * 2 + number);
    called(number, number, number, number, number, number, number, number, number, number, number, number, number,
        number, number, number, number, number, number, number, number)
}
`);
});
