// The commands of runs: explore with its statuses, and charts in pages.
import { test } from 'node:test';
import assert from 'node:assert/strict';
import { mkdtempSync, readFileSync, readdirSync, rmSync, writeFileSync } from 'node:fs';
import { tmpdir } from 'node:os';
import { join } from 'node:path';
import { main } from '../cli.js';
import { pat } from './programs.js';
import { masterAndWorkers, philosophers } from './made.js';

/** {status, text} of a command in a folder of its own, in which `text` is f.pat. */
async function tried(text, words, look = () => null) {
  const folder = mkdtempSync(join(tmpdir(), 'pat-commands-')), written = [];
  try {
    writeFileSync(join(folder, 'f.pat'), text);
    const placed = words.map(word => /^[fo]\./.test(word) ? join(folder, word) : word);
    const status = await main(placed, { write: piece => written.push(piece), complain: piece => written.push(piece) });
    return { status, text: written.join(''), seen: look(folder) };
  } finally { rmSync(folder, { recursive: true, force: true }); }
}
const RIGHT = 'def main(): Unit { spawn { print(1) }; print(2) }\n', TIME = ['--seconds', '3600'];

test('explore has the status 0, 7 where an end waits, 9 where not all was looked at, and pat\'s where it is refused', async () => {
  const right = await tried(RIGHT, ['explore', 'f.pat', ...TIME]);
  assert.equal(right.status, 0);
  assert.match(right.text, /one end; all orders were looked at[^]*it prints (2 1, or 1 2|1 2, or 2 1)\n/);
  assert.equal((await tried(philosophers(2), ['explore', 'f.pat', ...TIME])).status, 7);
  const cut = await tried(philosophers(3), ['explore', 'f.pat', '--states', '5', ...TIME]);
  assert.equal(cut.status, 9);
  assert.match(cut.text, /0 ends so far; not all orders were looked at \(5 configurations, .* --states N allows/);
  const refused = await tried('def main(): Unit { print(x) }\n', ['explore', 'f.pat']);
  assert.equal(refused.status, 1);
  assert.match(refused.text, /^unknown name at 25-26\n/);
  for (const words of [['--states', '0'], ['--states', 'many'], ['--end', '9'], ['f.pat']]) {
    assert.equal((await tried(RIGHT, ['explore', 'f.pat', ...words])).status, 2, words.join(' '));
  }
});

test('the history of an end is one that replay takes back; the ends are data, too', async () => {
  const { text } = await tried(philosophers(2), ['explore', 'f.pat', '--end', '2', ...TIME]);
  assert.match(pat(['replay'], Buffer.from(`${philosophers(2)}\n${text}`)).text, /^(out .*\n)*waiting 53 1 2 3 4\n$/);
  const { complete, ends } = JSON.parse((await tried(philosophers(2), ['explore', 'f.pat', '--json', ...TIME])).text);
  assert.equal(complete, true);
  assert.deepEqual(ends.map(end => [end.kind, end.commits, end.waiting.length]), [['done', 43, 0], ['waiting', 19, 4]]);
  assert.deepEqual(ends[1].waiting[0].pending, ['Take(me₂)']);
});

test('a chart is one picture or as many as it needs', async () => {
  const pictures = folder => readdirSync(folder).filter(name => name.endsWith('.svg')).map(name => [name, readFileSync(join(folder, name), 'utf8').slice(0, 4)]);
  assert.deepEqual((await tried(RIGHT, ['chart', 'f.pat', '-o', 'o.svg'], pictures)).seen, [['o.svg', '<svg']]);
  const { text, seen } = await tried(masterAndWorkers(6, 3), ['chart', 'f.pat', '-o', 'o.svg'], pictures);
  assert.deepEqual(seen.map(([name]) => name), ['o-1.svg', 'o-2.svg']);
  assert.match(text, /^2 pages: .*o-1\.svg to .*o-2\.svg\n$/);
  assert.equal((await tried(RIGHT, ['chart', 'f.pat'])).status, 2);
});
