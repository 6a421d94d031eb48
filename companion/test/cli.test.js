import { test } from 'node:test';
import assert from 'node:assert/strict';
import { mkdtempSync, readFileSync, rmSync, writeFileSync } from 'node:fs';
import { tmpdir } from 'node:os';
import { join } from 'node:path';
import { spawnSync } from 'node:child_process';
import { main } from '../cli.js';
import { pat } from './programs.js';

const folder = mkdtempSync(join(tmpdir(), 'companion-'));
process.on('exit', () => rmSync(folder, { recursive: true, force: true }));
process.env.PAT ??= './crates/pat_cli/out/pat_cli';

async function companion(...words) {
  let text = '', problem = '';
  const status = await main(words, { write: part => { text += part; }, complain: part => { problem += part; } });
  return { status, text, problem };
}
const textOf = async (...words) => (await companion(...words)).text;
const statusOf = async (...words) => (await companion(...words)).status;
const written = (name, text) => {
  const file = join(folder, name);
  writeFileSync(file, text);
  return file;
};
const future = 'examples/future.pat', wrong = 'examples/wrong/two_owners.pat', open = 'examples/wrong/kept_forks.pat';

test('the exit status is pat\'s, and 9 where pat can\'t tell', async () => {
  const answers = 'companion/test/answers';
  const statuses = [[['explain', future], 0], [['explain', wrong], 1], [['explain', open], 9],
    [['explain', 'examples/wrong/endless.pat'], 9], [['explain', 'examples/wrong/too_many.pat'], 9],
    [['check', future, open, wrong], 1], [['check', future, open], 9], [['run', `${answers}/waiting.pat`], 7],
    [['run', '--steps', '5', future], 6], [['run', '--messages', '3', `${answers}/full.pat`], 8],
    [['types', wrong], 1], [['run', wrong], 1], [['trace', open], 9]];
  for (const [words, status] of statuses) assert.equal(await statusOf(...words), status, words.join(' '));
});
test('words that are no command are told, with the line of usage; so are files and programs that aren\'t there', async () => {
  for (const words of [[], ['frob', future], ['explain'], ['explain', '--frob', future], ['run', future, future], ['chart', future],
    ['run', '--workers', 'x', future], ['run', '--workers']]) {
    const { status, text, problem } = await companion(...words);
    assert.deepEqual([status, text], [2, ''], words.join(' '));
    assert.match(problem, /^pat-companion: .*\nusage: /);
  }
  assert.match((await companion('explain', 'nowhere.pat')).problem, /nowhere\.pat/);
  assert.equal(await statusOf('explain', 'nowhere.pat'), 3);
  const { PAT } = process.env;
  process.env.PAT = '/nowhere/pat';
  const { status, problem } = await companion('explain', future);
  process.env.PAT = PAT;
  assert.deepEqual([status, problem], [5, 'pat-companion: /nowhere/pat isn\'t there: build it by ./pat help, or let PAT name the program\n']);
});

test('the line of pat stands first, and nothing else where a program is accepted', async () => {
  assert.equal(await textOf('explain', future), 'accepted\n');
  assert.match(await textOf('explain', wrong), /^untypable at 375-425: Double\nerror\[Double\]: /);
  assert.match(await textOf('explain', future, wrong), /^examples\/future.pat: accepted\n\nexamples\/wrong\/two_owners.pat: untypable/);
  assert.equal(await textOf('check', future, wrong),
    'examples/future.pat: accepted\nexamples/wrong/two_owners.pat:13:5: untypable at 375-425: Double\n');
});

test('a program with a history or a derivation behind it is judged', async () => {
  const text = readFileSync(future, 'utf8'), history = pat(['run'], text).text, derivation = pat(['derive'], text).text;
  assert.equal(await textOf('explain', written('replayed', text + history)), 'out 5\ndone 33\n');
  assert.equal(await textOf('explain', written('verified', text + derivation)), 'accepted\n');
  const changed = history.replace(/ end\n/, ' send\n');
  assert.match(await textOf('explain', written('changed', text + changed)), /^refused at entry .*\nerror: entry/);
  assert.match(await textOf('trace', future, written('history', history)), /prints 5/);
  assert.match(await textOf('trace', future, written('wrong', changed)), /^refused at entry /);
});

test('a run is as pat wrote it, and --quiet leaves the history out', async () => {
  assert.equal(await textOf('run', future), pat(['run'], readFileSync(future)).text);
  assert.equal(await textOf('run', '--quiet', future), 'out 5\ndone 33\n');
});

test('JSON has the answer, the places and what was found', async () => {
  const json = async (...words) => JSON.parse(await textOf(...words));
  const [right, refused] = (await textOf('explain', '--json', future, wrong)).trimEnd().split('\n').map(line => JSON.parse(line));
  assert.deepEqual(right, { file: future, status: 0, answer: 'accepted', output: [], explanation: null });
  assert.deepEqual(refused.explanation.marks.map(one => one.from),
    [{ line: 13, column: 21 }, { line: 14, column: 13 }, { line: 12, column: 9 }]);
  assert.deepEqual((await json('run', '--json', '--quiet', future)).output, ['5']);
  assert.equal((await json('types', '--json', future)).signatures[0], 'def future(self: Future?Put.Get): Unit');
  assert.deepEqual(await json('format', '--check', '--json', future), { file: future, changed: false });
  const { history } = await json('run', '--json', future);
  assert.equal((await json('trace', '--json', future)).rows.at(-1).entry, history.length - 1);
});

test('format writes in place, --check names what would change, and a text that is no program stays', async () => {
  const file = written('squeezed.pat', 'def main():Unit{print( 1+2 )}'), broken = written('broken.pat', 'def main(');
  assert.deepEqual(await companion('format', '--check', file), { status: 1, text: `${file}\n`, problem: '' });
  assert.equal(await statusOf('format', file), 0);
  assert.equal(readFileSync(file, 'utf8'), 'def main(): Unit { print(1 + 2) }\n');
  assert.equal(await textOf('format', '--check', file), '');
  assert.equal(await statusOf('format', broken), 1);
  assert.equal(readFileSync(broken, 'utf8'), 'def main(');
});

test('the script takes the standard input, and gives the status on; colours are for terminals alone', () => {
  const script = (words, options) => spawnSync('./pat-companion', words, options);
  const { status, stdout } = script(['format', '-'], { input: 'def main():Unit{()}' });
  assert.deepEqual([status, stdout.toString()], [0, 'def main(): Unit { () }\n']);
  const refused = script(['explain', wrong]);
  assert.equal(refused.status, 1);
  assert.ok(!refused.stdout.toString().includes('\x1b'));
  const onTerminal = NO_COLOR =>
    spawnSync('script', ['-qec', `./pat-companion explain ${wrong}`, '/dev/null'], { env: { ...process.env, NO_COLOR } });
  const shown = onTerminal('');
  if (shown.error) return;
  assert.ok(shown.stdout.toString().includes('\x1b['));
  assert.ok(!onTerminal('1').stdout.toString().includes('\x1b['));
});

/** Seconds of a processor, of the script and what it starts. */
function timed(words) {
  const { stderr } = spawnSync('bash', ['-c', 'TIMEFORMAT="%U %S"; time ./pat-companion "$@" > /dev/null', 'bash', ...words]);
  return stderr.toString().trim().split(/\s+/).slice(-2).reduce((sum, part) => sum + Number(part), 0);
}
test('explaining takes little time', () => {
  const WANTED = 0.3, BESIDE_OTHER_WORK = 4;        // seconds, and how much slower a busy machine may be
  for (const file of [open, 'examples/wrong/too_many.pat']) assert.ok(timed(['explain', file]) < WANTED * BESIDE_OTHER_WORK, file);
});
