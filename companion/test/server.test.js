// A client that speaks the protocol with the language server: what it is told of texts, and what happens with bad messages.
import { test } from 'node:test';
import assert from 'node:assert/strict';
import { spawn } from 'node:child_process';
import { fileURLToPath } from 'node:url';
import { TextDocument } from '../lsp/documents.js';
import { definition, formatting, hover, prepareRename, symbols } from '../lsp/features.js';
import { format } from '../format.js';
import { parse } from '../parse.js';
import { programs } from './programs.js';

const SERVER = fileURLToPath(new URL('../server.js', import.meta.url)), PATIENCE = 120000;
const FUTURE = `interface Future { Put(Int), Get(User!Reply) }
interface User { Reply(Int) }
def future(self: Future?): Unit { guard self : Put.*Get { receive Put(x) from self -> resolved(self, x) } }
def resolved(self: Future?, x: Int): Unit { guard self : *Get { free -> () receive Get(user) from self -> user ! Reply(x); resolved(self, x) } }
def main(): Unit { let f = new[Future] in spawn { future(f) }; f ! Put(5) }
`;
const TWICE = FUTURE.replace('f ! Put(5)', '/* */f ! Put(5); f ! Put(6)').replace('/* */', '');

class Client {
  /** `context` is the test's: the server ends with it, however it ends. */
  constructor(context) {
    context.after(() => this.process.kill());
    this.process = spawn(process.execPath, [SERVER], { stdio: ['pipe', 'pipe', 'inherit'] });
    this.ended = new Promise(resolve => this.process.on('close', resolve));
    Object.assign(this, { kept: Buffer.alloc(0), messages: [], waiting: [], number: 0 });
    this.process.stdout.on('data', chunk => this.read(chunk));
  }
  read(chunk) {
    this.kept = Buffer.concat([this.kept, chunk]);
    for (;;) {
      const end = this.kept.indexOf('\r\n\r\n');
      if (end < 0) break;
      const length = Number(/Content-Length: (\d+)/.exec(this.kept.toString('latin1', 0, end))[1]);
      if (this.kept.length < end + 4 + length) break;
      this.messages.push(JSON.parse(this.kept.toString('utf8', end + 4, end + 4 + length)));
      this.kept = this.kept.subarray(end + 4 + length);
    }
    this.waiting = this.waiting.filter(look => !look());
  }
  /** The first message, taken out, for which `fits` holds. */
  next(fits) {
    return new Promise((resolve, reject) => {
      const timer = setTimeout(() => reject(new Error(`no such message; there are ${JSON.stringify(this.messages)}`)), PATIENCE);
      const look = () => {
        const index = this.messages.findIndex(fits);
        if (index < 0) return false;
        clearTimeout(timer); resolve(this.messages.splice(index, 1)[0]);
        return true;
      };
      if (!look()) this.waiting.push(look);
    });
  }
  raw(bytes) { this.process.stdin.write(bytes); }
  send(message) { this.raw(framed(JSON.stringify({ jsonrpc: '2.0', ...message }))); }
  notify(method, params) { this.send({ method, params }); }
  request(method, params) {
    const id = ++this.number;
    this.send({ id, method, params });
    return this.next(message => message.id === id && message.method === undefined);
  }
  async begin() { return (await this.request('initialize', { capabilities: {} })).result; }
  open(text, uri = 'file:///a.pat', version = 1) { this.notify('textDocument/didOpen', { textDocument: { uri, languageId: 'pat', version, text } }); }
  change(contentChanges, version, uri = 'file:///a.pat') { this.notify('textDocument/didChange', { textDocument: { uri, version }, contentChanges }); }
  diagnostics(version, uri = 'file:///a.pat') {
    return this.next(({ method, params }) => method === 'textDocument/publishDiagnostics' && params.uri === uri && params.version === version)
      .then(({ params }) => params.diagnostics);
  }
  async end() {
    await this.request('shutdown');
    this.notify('exit');
    assert.equal(await this.ended, 0);
  }
}
const framed = text => `Content-Length: ${Buffer.byteLength(text)}\r\n\r\n${text}`;
const at = (text, piece, more = 0) => {
  const before = text.slice(0, text.indexOf(piece) + more).split('\n');
  return { line: before.length - 1, character: before.at(-1).length };
};
const asked = (position, more = {}) => ({ textDocument: { uri: 'file:///a.pat' }, position, ...more });
const textAt = (text, { start, end }) => text.split('\n')[start.line].slice(start.character, end.line === start.line ? end.character : undefined);

test('problems come as one types, with related places, for the newest text', async context => {
  const client = new Client(context), { capabilities } = await client.begin();
  assert.equal(capabilities.positionEncoding, 'utf-16');
  client.open(FUTURE);
  assert.deepEqual(await client.diagnostics(1), []);
  const end = at(FUTURE, 'f ! Put(5)', 'f ! Put(5)'.length);
  client.change([{ range: { start: end, end }, text: '; f ! Put(6)' }], 2);
  const [problem, ...others] = await client.diagnostics(2);
  assert.deepEqual(others, []);
  assert.equal(problem.severity, 1);
  assert.equal(problem.source, 'pat');
  assert.ok(problem.relatedInformation.length > 0);
  assert.ok(problem.relatedInformation.some(({ location }) => /Put/.test(textAt(TWICE, location.range))), JSON.stringify(problem));
  client.change([{ text: FUTURE }], 3);
  assert.deepEqual(await client.diagnostics(3), []);
  await client.end();
});

test('what changes while a check runs is checked afterwards, once, and old answers are thrown away', async context => {
  const client = new Client(context);
  await client.begin();
  client.open(FUTURE);
  for (let version = 2; version <= 40; version++) client.change([{ text: version % 2 ? TWICE : FUTURE }], version);
  client.change([{ text: TWICE }], 41);
  assert.equal((await client.diagnostics(41)).length, 1);
  const told = client.messages.filter(({ method }) => method === 'textDocument/publishDiagnostics').map(({ params }) => params.version);
  assert.ok(told.length < 20, `${told.length} answers`);
  assert.deepEqual([...told].sort((one, other) => one - other), told);
  await client.end();
});

test('positions are counted in units of UTF-16', async context => {
  const text = 'def main(): Unit { let 名 = "😀é" in print(名 + 名) }\n', client = new Client(context);
  await client.begin();
  client.open(text);
  const [problem] = await client.diagnostics(1);
  assert.equal(textAt(text, problem.range), '名');
  const { result } = await client.request('textDocument/definition', asked(at(text, '名 + 名', 4)));
  assert.equal(result.range.start.character, at(text, '名').character);
  const behind = at(text, '"😀é"', 3);
  client.change([{ range: { start: behind, end: { ...behind, character: behind.character + 1 } }, text: '😀' }], 2);
  client.change([{ range: { start: at(text, ' + 名'), end: at(text, ') }') }, text: '' }].map(({ range }) => ({
    range: { start: { ...range.start, character: range.start.character + 1 }, end: { ...range.end, character: range.end.character + 1 } }, text: '' })), 3);
  assert.deepEqual(await client.diagnostics(3), []);
  await client.end();
});

test('hover shows found types; definitions, new names, layout and outline', async context => {
  const client = new Client(context);
  await client.begin();
  client.open(FUTURE);
  await client.diagnostics(1);
  const hovered = async (piece, more) => (await client.request('textDocument/hover', asked(at(FUTURE, piece, more)))).result?.contents.value;
  assert.match(await hovered('resolved(self, x) } }', 2), /def resolved\(self: Future\?\*Get, x: Int\): Unit/);
  assert.match(await hovered('def future(self', 12), /self: Future\?Put\n/);
  assert.match(await hovered('guard self : *Get', 7), /self: Future\?\*Get\n/);
  assert.match(await hovered('f ! Put(5)', 4), /Put\(Int\)/);
  assert.match(await hovered('new[Future]', 5), /interface Future \{ Put\(Int\), Get\(User!Reply\) \}/);
  assert.match(await hovered('user ! Reply', 1), /user: User!Reply/);
  assert.equal(await hovered('guard self', 1), undefined);
  const defined = async (piece, more) => (await client.request('textDocument/definition', asked(at(FUTURE, piece, more)))).result?.range.start;
  assert.deepEqual(await defined('f ! Put(5)', 0), at(FUTURE, 'let f', 4));
  assert.deepEqual(await defined('future(f)', 1), at(FUTURE, 'def future', 4));
  assert.deepEqual(await defined('f ! Put(5)', 4), at(FUTURE, 'Put(Int)'));
  const renamed = (piece, more, newName) => client.request('textDocument/rename', asked(at(FUTURE, piece, more), { newName }));
  const { result } = await renamed('user ! Reply(x)', 0, 'whom');
  assert.deepEqual(result.changes['file:///a.pat'].map(({ range }) => textAt(FUTURE, range)), ['user', 'user']);
  assert.match((await renamed('user ! Reply(x)', 0, 'x')).error.message, /would be taken for another/);
  assert.match((await renamed('user ! Reply(x)', 0, 'let')).error.message, /is no name/);
  assert.match((await renamed('def future', 5, 'other')).error.message, /only the names of variables/);
  const formatted = (await client.request('textDocument/formatting', asked(null, { options: {} }))).result;
  assert.equal(formatted[0].newText, format(parse(FUTURE)));
  const outline = (await client.request('textDocument/documentSymbol', asked(null))).result;
  assert.deepEqual(outline.map(one => one.name), ['Future', 'User', 'future', 'resolved', 'main']);
  assert.deepEqual(outline[0].children.map(one => one.name), ['Put', 'Get']);
  await client.end();
});

test('bad messages are answered, and the next one is read', async context => {
  const client = new Client(context);
  const early = await client.request('textDocument/hover', asked({ line: 0, character: 0 }));
  assert.equal(early.error.code, -32002);
  await client.begin();
  client.raw(framed('{ "method": '));
  assert.equal((await client.next(message => message.error)).error.code, -32700);
  client.raw('X-Other: 1\r\n\r\n');
  assert.equal((await client.next(message => message.error)).error.code, -32700);
  client.raw(framed('[1]'));
  assert.equal((await client.next(message => message.error)).error.code, -32600);
  for (const [method, params, code] of [
    ['textDocument/nothing', {}, -32601], ['toString', {}, -32601], ['textDocument/hover', asked({ line: 0, character: 0 }), -32602],
    ['textDocument/hover', {}, -32602], ['textDocument/rename', null, -32602]]) {
    assert.equal((await client.request(method, params)).error.code, code, method);
  }
  client.open(FUTURE);
  for (const position of [{ line: 99, character: 0 }, { line: 0, character: 999 }, { line: -1, character: -5 }]) {
    assert.ok('result' in await client.request('textDocument/hover', asked(position)));
  }
  for (const position of [null, {}, { line: 'a', character: 0 }, { line: 0.5, character: 0 }]) {
    assert.ok('error' in await client.request('textDocument/hover', asked(position)), JSON.stringify(position));
  }
  client.notify('textDocument/didChange', { textDocument: { uri: 'file:///a.pat', version: 7 }, contentChanges: [{}] });
  client.notify('textDocument/didOpen', { textDocument: {} });
  client.notify('$/anything', {});
  await client.diagnostics(1);
  await client.end();
});

test('messages may come in pieces, and several at once', async context => {
  const client = new Client(context), text = framed(JSON.stringify({ jsonrpc: '2.0', id: 1, method: 'initialize', params: {} }));
  for (const byte of Buffer.from(text)) client.raw(Buffer.from([byte]));
  client.number = 1;
  await client.next(message => message.id === 1);
  const opening = { jsonrpc: '2.0', method: 'textDocument/didOpen', params: { textDocument: { uri: 'file:///a.pat', version: 1, text: FUTURE } } };
  client.raw(framed(JSON.stringify(opening)) + framed(JSON.stringify({ jsonrpc: '2.0', id: 9, method: 'textDocument/documentSymbol', params: asked(null) })));
  assert.equal((await client.next(message => message.id === 9)).result.length, 5);
  await client.end();
});

test('an end without a shutdown has the status 1', async context => {
  const client = new Client(context);
  await client.begin();
  client.notify('exit');
  assert.equal(await client.ended, 1);
});

test('at each place of each program there is an answer', () => {
  for (const { name, bytes } of programs) {
    const document = new TextDocument(`file:///${name}`, 1, bytes.toString());
    document.text.split('\n').forEach((line, number) => {
      for (let character = 0; character <= line.length; character += 3) {
        for (const feature of [hover, definition, prepareRename]) assert.doesNotMatch(JSON.stringify(feature(document, { line: number, character })), /undefined/);
      }
    });
    assert.ok(Array.isArray(symbols(document)), name);
    if (document.tree) assert.ok(formatting(document).length <= 1);
  }
});

test('positions and offsets go over into one another, whatever ends the lines', () => {
  const document = new TextDocument('file:///a', 1, '😀é\r\nb\rc\n\n名x');
  assert.deepEqual([0, 4, 6, 7, 8, 9, 10, 11, 12, 13, 16, 17].map(offset => { const { line, character } = document.positionOf(offset); return [line, character]; }),
    [[0, 0], [0, 2], [0, 3], [0, 4], [1, 0], [1, 1], [2, 0], [2, 1], [3, 0], [4, 0], [4, 1], [4, 2]]);
  for (const [offset, position] of [[0, [0, 0]], [0, [0, 1]], [4, [0, 2]], [6, [0, 3]], [6, [0, 99]], [8, [1, 0]], [17, [4, 2]], [17, [99, 0]]]) {
    assert.equal(document.offsetOf({ line: position[0], character: position[1] }), offset, String(position));
  }
  document.change([{ range: { start: { line: 0, character: 2 }, end: { line: 1, character: 1 } }, text: '-\n' }, { range: null, text: 'all' }, {
    range: { start: { line: 0, character: 3 }, end: { line: 9, character: 9 } }, text: '!' }], 2);
  assert.equal(document.text, 'all!');
  assert.equal(document.version, 2);
});
