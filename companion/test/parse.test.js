import { test } from 'node:test';
import assert from 'node:assert/strict';
import { parse, parsePattern, spellPattern, tokenize, Source, SyntaxProblem } from '../parse.js';
import { resolve } from '../names.js';
import { readVerdict } from '../verdict.js';
import { numbered, variablesOf } from '../explain/judged.js';
import { accepted, isReadable, madeAtRandom, pat, programs } from './programs.js';

const changed = madeAtRandom({ seed: 1, count: 300, change: 'any' });

test('a program is read where pat reads it, and refused where pat refuses it', () => {
  for (const one of [...programs, ...changed]) {
    const { name, bytes, verdict } = one, read = () => parse(new Source(bytes));
    if (isReadable(one)) assert.doesNotThrow(read, name);
    else if (verdict.startsWith('syntax')) assert.throws(read, problem => {
      assert.ok(problem instanceof SyntaxProblem, name);
      return problem.offset === readVerdict(verdict).place.a;
    }, `${name}: ${verdict}`);
  }
});

test('patterns are spelled as they are read', () => {
  for (const spelled of ['0', '1', 'm', '*m', '*(m + n)', 'm.n + 1', '(m + n).*(a.b)', '$1.m', '**m'])
    assert.equal(spellPattern(parsePattern(spelled)), spelled);
  assert.equal(spellPattern(parsePattern('((m) + (n.(a)))')), 'm + n.a');
});

test('places are bytes, and positions are characters', () => {
  const source = new Source('// é\r\ndef größe(): Unit { () }', 'x'), { tokens } = tokenize(source), name = tokens[1];
  assert.equal(source.slice(name), 'größe');
  assert.deepEqual(source.position(name.z), { line: 2, column: 10 });
  assert.equal(source.line(1), '// é');
  for (const offset of [0, name.a, name.z]) assert.equal(source.offset(source.index(offset)), offset);
});

test('each name has its binder, its use and its declaration', () => {
  const text = 'interface I { m(I!m) } def f(a: I?, n: Int): Unit { guard a : m { receive m(b) from a -> b ! m(b); free(a) } }';
  const names = resolve(parse(text));
  assert.deepEqual(names.binders.map(({ name, what }) => `${what} ${name}`), ['parameter a', 'parameter n', 'payload b', 'from a']);
  assert.deepEqual(names.uses.map(({ binder, how }) => `${how} ${binder.what} ${binder.name}`),
    ['guard parameter a', 'send payload b', 'payload payload b', 'free from a']);
  assert.deepEqual(names.references.filter(one => one.to).map(one => one.what),
    ['interface', 'message', 'interface', 'message', 'message', 'message']);
});

test('nodes and variables have the numbers that derivations give them', () => {
  for (const { name, bytes } of accepted) {
    const program = parse(new Source(bytes)), names = resolve(program), nodes = numbered(program);
    const lines = pat(['derive'], bytes).text.split('\n').filter(line => line.startsWith('node '));
    assert.equal(lines.length, nodes.length, name);
    lines.forEach((line, number) => assertVariables(line, nodes[number], names, `${name}, node ${number}`));
  }
});
function assertVariables(line, { def, term }, names, where) {
  const variables = variablesOf(def, names);
  for (const [, variable, declared] of line.matchAll(/[{ ]v(\d+): ([^!?]+)[!?]/g)) {
    const binder = variables[Number(variable)];
    assert.equal(binder?.kind.interface, declared, where);
    assert.ok(binder.scope.a <= term.a && term.z <= binder.scope.z, `${where}, v${variable}`);
  }
}
