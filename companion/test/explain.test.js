import { test } from 'node:test';
import assert from 'node:assert/strict';
import { existsSync, readFileSync } from 'node:fs';
import { basename } from 'node:path';
import { Source } from '../parse.js';
import { readVerdict } from '../verdict.js';
import { explain, EXPLAINED } from '../explain/explain.js';
import { RULES } from '../explain/rows.js';
import { render } from '../explain/render.js';
import { main } from '../cli.js';
import { filesIn, isReadable, madeAtRandom, pat, programs } from './programs.js';

// How the runs among the answers are made; the others are explained.
const QUIET = ['run', '--quiet'], RUNS = { waiting: QUIET, budget: QUIET, left: QUIET, full: [...QUIET, '--messages', '3'] };
const ANSWERS = 'companion/test/answers';
async function written(words) {
  let text = '';
  const status = await main(words, { write: part => { text += part; } });
  return { text, status };
}

/** Beside each program stands its explanation: made by \`pat-companion explain PROGRAM > NAME.explained\`, and read before it is kept. */
async function compare(file) {
  const beside = file.replace(/\.pat$/, '.explained');
  const { text } = await written([...RUNS[basename(file, '.pat')] ?? ['explain'], file]);
  assert.ok(existsSync(beside), `${beside} is missing`);
  assert.equal(text, readFileSync(beside, 'utf8'), file);
}
test('each wrong example has the explanation that stands beside it', async () => {
  for (const file of filesIn('examples/wrong')) await compare(file);
});
test('so has each kind of answer', async () => {
  for (const file of filesIn(ANSWERS)) await compare(file);
  const kinds = new Set([...filesIn(ANSWERS), ...filesIn('examples/wrong')].map(file => {
    const line = readFileSync(file.replace(/\.pat$/, '.explained'), 'utf8').split('\n').find(one => !one.startsWith('out '));
    return readVerdict(line).kind;
  }));
  // (a text that is too long has a megabyte: below)
  for (const kind of EXPLAINED.filter(one => one !== 'too long')) assert.ok(kinds.has(kind), `no answer of kind ${kind}`);
});
test('a text that is too long', () => {
  const source = new Source(' '.repeat(1048577)), { text } = pat(['check'], source.bytes);
  assert.match(render(source, explain(source, readVerdict(text))), /it has 1,048,577 bytes/);
});

test('the programs that one writes first are refused with hints, step by step, until they are accepted', () => {
  const first = programs.filter(({ name }) => name.includes('test/first/'));
  for (const { name, bytes, verdict } of first) {
    const next = name.replace(/_(\d+)/, (_, number) => `_${Number(number) + 1}`), last = !first.some(one => one.name === next);
    if (last) {
      assert.equal(verdict, 'accepted', name);
      continue;
    }
    assert.notEqual(verdict, 'accepted', name);
    assert.ok(explain(new Source(bytes, name), readVerdict(verdict)).hints.length, name);
  }
});

/** What is asked of every explanation. */
function assertSound(source, verdict, explanation) {
  const where = `${source.name}: ${verdict}`, text = render(source, explanation);
  assert.doesNotMatch(text, /undefined|\[object|NaN/, where);
  assert.ok(explanation.headline && explanation.doc, where);
  assert.ok(!explanation.notes.includes('no closer explanation was found'), where);
  if (explanation.marks.length) assert.equal(explanation.marks.filter(one => one.primary).length, 1, where);
  for (const { place: { a, z } } of explanation.marks) assert.ok(0 <= a && a <= z && z <= source.bytes.length, where);
  if (/^(untypable|refuted|undecided|unusable)/.test(verdict)) assert.match(explanation.headline, /`/, where);
}
test('each refusal has one, with one first mark, that names its mailbox; programs changed at random too', () => {
  const made = [...madeAtRandom({ seed: 5, count: 80, change: 'any' }), ...madeAtRandom({ seed: 6, count: 200, change: 'exchange' })];
  for (const { name, bytes, verdict } of [...programs, ...made]) {
    const source = new Source(bytes, name), explanation = explain(source, readVerdict(verdict));
    if (verdict === 'accepted') assert.equal(explanation, null);
    else assertSound(source, verdict, explanation);
  }
});
test('where none is found, the row of LANGUAGE stands in', () => {
  const source = new Source('def main(): Unit { () }\n', 'strange');
  for (const line of ['untypable at 1-2: Alias', 'untypable at 0-3: Unheard', 'refuted at 3-4: word m not in 1', 'too large: Nobody',
    'unusable at 1-2']) {
    const explanation = explain(source, readVerdict(line));
    assert.ok(explanation.headline && render(source, explanation), line);
  }
  assert.deepEqual(explain(source, readVerdict('untypable at 1-2: Alias')).notes, ['no closer explanation was found']);
});
test('the rows are those of LANGUAGE', () => {
  const page = readFileSync('docs/LANGUAGE.md', 'utf8');
  for (const [rule, [happened, write]] of Object.entries(RULES)) assert.ok(page.includes(`| ${rule} | ${happened} | ${write} |`), rule);
});
test('chapters that explanations point to are there', () => {
  const pages = new Map();
  const page = file => pages.get(file) ?? pages.set(file, readFileSync(file, 'utf8')).get(file);
  for (const { name, bytes, verdict } of programs.filter(one => one.verdict !== 'accepted' && isReadable(one))) {
    const { doc } = explain(new Source(bytes), readVerdict(verdict));
    for (const [, file, title] of doc.matchAll(/(docs\/\w+\.md), "([^"]+)"/g))
      assert.match(page(file), new RegExp(`(^#+ |\\*\\*)${title.replace(/[.*+?^${}()|[\]\\`]/g, '\\$&')}`, 'm'), name);
  }
});

test('a line is shown as it stands, but for what would move the cursor', () => {
  const source = new Source('\t// \u001b[31m\u202e x\n', 't'), marks = [{ place: { a: 12, z: 13 }, label: 'x', primary: true }];
  const shown = render(source, { kind: 'x', rule: null, headline: 'h', marks, notes: [], hints: [], doc: null });
  assert.match(shown, /^1 \|  \/\/ \ufffd\[31m\ufffd x$/m);
  assert.doesNotMatch(shown, /[\t\u001b\u202e]/);
});
test('a mark that is longer than a line has a bar', () => {
  const source = new Source('a {\n  b\n  c\n}\nd', 't'), marks = [{ place: { a: 2, z: 13 }, label: 'all of it', primary: true },
    { place: { a: 6, z: 7 }, label: 'this', primary: false }];
  assert.equal(render(source, { kind: 'x', rule: null, headline: 'h', marks, notes: [], hints: [], doc: null }), `error: h
 --> t:1:3
  |
1 |   a {
  |  ___^
2 | |   b
  | |   - this
3 | |   c
4 | | }
  | |_^ all of it
`);
});
