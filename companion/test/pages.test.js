import { test } from 'node:test';
import assert from 'node:assert/strict';
import { readFileSync } from 'node:fs';
import { parse } from '../parse.js';
import { format } from '../format.js';
import { main } from '../cli.js';
import { pat } from './programs.js';

const blocksOf = file => [...readFileSync(file, 'utf8').matchAll(/^```\w*\n([\s\S]*?)^```$/gm)].map(([, text]) => text);

test('each program of the page on idioms is accepted, laid out, and prints what stands below it', () => {
  const blocks = blocksOf('docs/IDIOMS.md'), isProgram = text => text.includes('def main()');
  assert.ok(blocks.filter(isProgram).length > 10);
  blocks.forEach((text, index) => {
    if (!isProgram(text)) return;
    const run = pat(['run'], text).text.split('\n').filter(line => line.startsWith('out '));
    const answer = pat(['check'], text).text.trimEnd();
    assert.equal([answer, ...run].join('\n') + '\n', blocks[index + 1], text);
    assert.equal(format(parse(text)), text);
  });
});

test('what LANGUAGE shows of explanations is what is written', async () => {
  const shown = blocksOf('docs/LANGUAGE.md').filter(text => text.startsWith('$ ./pat-companion explain '));
  assert.ok(shown.length > 3);
  for (const text of shown) {
    const [command, ...lines] = text.split('\n'), files = command.split(' ').slice(3);
    let written = '';
    await main(['explain', ...files], { write: part => { written += part; } });
    assert.equal(lines.join('\n'), written, command);
  }
});
