import { test } from 'node:test';
import assert from 'node:assert/strict';
import { parse, parsePattern, spellPattern, Source } from '../parse.js';
import { resolve } from '../names.js';
import { readVerdict } from '../verdict.js';
import { residual, smallWords, wordOf } from '../words.js';
import { simplify } from '../simplify.js';
import { sizesOf } from '../sizes.js';
import { readVariables, types } from '../types.js';
import { accepted, madeAtRandom, pat, programs } from './programs.js';

const random = madeAtRandom({ seed: 2, count: 150, change: 'exchange' });
const sorted = words => words.map(word => [...word].sort().join(' ')).sort();

test('the leaves of each refuting word are found, and a small word for each undecided one', () => {
  const asked = [...programs, ...random].filter(({ verdict }) => /^(refuted|undecided)/.test(verdict));
  for (const { name, bytes, verdict } of asked) {
    const program = parse(new Source(bytes)), found = wordOf(program, resolve(program), readVerdict(verdict), { time: 20000 });
    assert.ok(found, `${name}: ${verdict}`);
    assert.deepEqual(found.leaves.map(leaf => leaf.tag).filter(Boolean).sort(), [...found.word].sort(), name);
  }
});

test('a message that is sent three calls away has the way by which it came', () => {
  const text = `interface I { m() }
def one(x: I!): Unit { x ! m() }
def two(y: I!): Unit { one(y) }
def three(z: I!): Unit { two(z); two(z) }
def main(): Unit { let a = new[I] in three(a); guard a : m { receive m() from a -> free(a) } }`;
  const program = parse(text), verdict = readVerdict(pat(['check'], new Source(text).bytes).text);
  const { leaves } = wordOf(program, resolve(program), verdict);
  assert.deepEqual(leaves.map(({ leaf, ways }) => [...ways.map(use => use.callee), leaf.how].join(' ')), Array(2).fill('three two one send'));
});

test('what is left behind a message, and small words', () => {
  const left = (pattern, tag) => spellPattern(simplify(residual(parsePattern(pattern), tag)));
  assert.equal(left('*(Take.Release)', 'Take'), 'Release.*(Take.Release)');
  assert.equal(left('Put.*Get', 'Put'), '*Get');
  assert.equal(left('Add.Left.Right + Negate.Left', 'Add'), 'Left.Right');
  assert.deepEqual(smallWords(parsePattern('*(a.b) + c'), 2), [[], ['c'], ['a', 'b']]);
});

test('a pattern in few words', () => {
  const simple = text => spellPattern(simplify(parsePattern(text)));
  assert.equal(simple('(m + n).*(m + n) + 1'), '*m.*n');
  assert.equal(simple('1 + m.n.*(m.n)'), '*(m.n)');
  assert.equal(simple('m.*m'), 'm.*m');
});

test('simplified patterns have the same words, and every function has its line', () => {
  for (const { name, bytes } of accepted) {
    const program = parse(new Source(bytes)), { text } = pat(['derive'], bytes);
    for (const value of readVariables(text, program).filter(Boolean)) {
      const size = spellPattern(value.pattern).length > 800 ? 2 : 4;
      assert.deepEqual(sorted(smallWords(simplify(value.pattern), size)), sorted(smallWords(value.pattern, size)), name);
    }
    assert.equal(types(program, text).split('\n').length - 1, program.functions.size, name);
  }
});

test('patterns made at random are simplified to the same words', () => {
  let seed = 7;
  const below = most => (seed = (seed * 1103515245 + 12345) % 2147483648) % most;
  const make = depth => {
    const kind = below(depth ? 6 : 3);
    if (kind < 3) return { k: 'tag', tag: 'abc'[kind] };
    if (kind === 3) return { k: '*', of: make(depth - 1) };
    return { k: kind === 4 ? '+' : '.', left: make(depth - 1), right: make(depth - 1) };
  };
  for (let number = 0; number < 400; number++) {
    const pattern = make(4), simple = simplify(pattern);
    assert.ok(spellPattern(simple).length <= spellPattern(pattern).length);
    assert.deepEqual(sorted(smallWords(simple, 3)), sorted(smallWords(pattern, 3)), spellPattern(pattern));
  }
});

test('the pattern that grew is the largest', () => {
  const { bytes } = programs.find(({ name }) => name === 'examples/wrong/too_many.pat'), program = parse(new Source(bytes));
  const [largest] = sizesOf(program, resolve(program), 'Worker').filter(({ from }) => from.type);
  assert.equal(largest.size, 4096);
});
