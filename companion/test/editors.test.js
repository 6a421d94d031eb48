// The set-ups for editors, as far as they can be tried here: the extension of VS Code with stand-ins for what VS Code offers, the grammar of
// colours, and Neovim and Emacs where they are on the path.
import { test } from 'node:test';
import assert from 'node:assert/strict';
import { spawnSync } from 'node:child_process';
import { createRequire } from 'node:module';
import { existsSync, mkdtempSync, readFileSync, rmSync, writeFileSync } from 'node:fs';
import { tmpdir } from 'node:os';
import { join } from 'node:path';
import { fileURLToPath } from 'node:url';
import { setTimeout as sleep } from 'node:timers/promises';
import { pat } from './programs.js';

const EDITORS = fileURLToPath(new URL('../editors/', import.meta.url)), PATIENCE = 180000, require = createRequire(import.meta.url);
const WRONG = 'interface M { A() }\ndef main(): Unit {  let m = new[M] in m ! A(); m ! A(); guard m : A { receive A() from m -> free(m) } }\n';
const RIGHT = WRONG.replace('m ! A(); m ! A()', 'm ! A()');

// --------------------------------------------------------------------------------------------------------------- VS Code

/** What the extension uses of VS Code; what it registers and shows is kept. */
function standIn() {
  class Range { constructor(...numbers) { const [line, character, endLine, endCharacter] = numbers;
    this.start = { line, character }; this.end = { line: endLine, character: endCharacter }; } }
  class Kept { constructor(...parts) { this.parts = parts; } }
  class WorkspaceEdit { constructor() { this.edits = []; } replace(uri, range, text) { this.edits.push({ uri, range, text }); } }
  const seen = { providers: {}, problems: new Map(), listeners: {}, errors: [] };
  const register = name => (language, provider) => { seen.providers[name] = provider; return { dispose() {} }; };
  const on = name => listener => { seen.listeners[name] = listener; return { dispose() {} }; };
  const document = { languageId: 'pat', uri: 'file:///a.pat', version: 1, text: WRONG, getText() { return this.text; } };
  const vscode = {
    Range, Location: Kept, Diagnostic: class { constructor(range, message, severity) { Object.assign(this, { range, message, severity }); } },
    DiagnosticRelatedInformation: Kept, DocumentSymbol: class { constructor(name) { this.name = name; } }, Hover: Kept, MarkdownString: Kept, TextEdit: Kept,
    WorkspaceEdit, Uri: { parse: text => text }, window: { showErrorMessage: text => seen.errors.push(text) },
    workspace: { textDocuments: [document], getConfiguration: () => ({ get: name => name === 'node' ? process.execPath : '' }),
      onDidOpenTextDocument: on('open'), onDidChangeTextDocument: on('change'), onDidCloseTextDocument: on('close') },
    languages: { createDiagnosticCollection: () => ({ set: (uri, list) => seen.problems.set(uri, list), dispose() {} }),
      registerHoverProvider: register('hover'), registerDefinitionProvider: register('definition'), registerRenameProvider: register('rename'),
      registerDocumentFormattingEditProvider: register('format'), registerDocumentSymbolProvider: register('symbols') },
  };
  return { vscode, seen, document };
}
async function until(holds) {
  for (const end = Date.now() + PATIENCE; Date.now() < end; await sleep(50)) if (holds()) return;
  assert.fail('it took too long');
}

test('the extension of VS Code shows problems, types, definitions, new names, layout and outline', async context => {
  const Module = require('node:module'), load = Module._load, { vscode, seen, document } = standIn();
  Module._load = (name, ...more) => name === 'vscode' ? vscode : load.call(Module, name, ...more);
  const extension = require(join(EDITORS, 'vscode/extension.js'));
  Module._load = load;
  context.after(() => extension.deactivate());
  const subscriptions = [];
  await extension.activate({ subscriptions });
  await until(() => seen.problems.get('file:///a.pat')?.length === 1);
  const [problem] = seen.problems.get('file:///a.pat'), { hover, definition, rename, format, symbols } = seen.providers;
  assert.equal(problem.severity, 0);
  assert.ok(problem.relatedInformation.length > 0);
  const place = { line: 1, character: WRONG.split('\n')[1].indexOf('m ! A') };
  assert.match((await hover.provideHover(document, place)).parts[0].parts[0], /m: M/);
  assert.equal((await definition.provideDefinition(document, place)).parts[0], 'file:///a.pat');
  assert.equal((await rename.provideRenameEdits(document, place, 'box')).edits.length, 4);
  await assert.rejects(rename.prepareRename(document, { line: 0, character: 0 }), /only the names of variables/);
  assert.equal((await format.provideDocumentFormattingEdits(document)).length, 1);
  assert.deepEqual((await symbols.provideDocumentSymbols(document)).map(one => one.name), ['M', 'main']);
  const from = WRONG.split('\n')[1].indexOf('m ! A(); ');
  Object.assign(document, { version: 2, text: RIGHT });
  seen.listeners.change({ document, contentChanges: [{ range: new vscode.Range(1, from, 1, from + 'm ! A(); '.length), text: '' }] });
  await until(() => seen.problems.get('file:///a.pat')?.length === 0);
  assert.deepEqual(seen.errors, []);
});

test('what VS Code is told of the extension is there', () => {
  const read = file => JSON.parse(readFileSync(join(EDITORS, 'vscode', file), 'utf8')), { main, contributes } = read('package.json');
  for (const file of [main, contributes.languages[0].configuration, contributes.grammars[0].path]) assert.ok(existsSync(join(EDITORS, 'vscode', file)));
  assert.equal(read(contributes.grammars[0].path).scopeName, contributes.grammars[0].scopeName);
  assert.equal(read(contributes.languages[0].configuration).comments.lineComment, '//');
});

// --------------------------------------------------------------------------------------------------------------- colours

const GRAMMAR = JSON.parse(readFileSync(join(EDITORS, 'vscode/pat.tmLanguage.json'), 'utf8'));
const rulesOf = ({ include, patterns, ...rule }) => include ? rulesOf(GRAMMAR.repository[include.slice(1)]) : patterns && !rule.begin
  ? patterns.flatMap(rulesOf) : [rule];

/** The scopes of a line's pieces, {text: scope}, as an editor finds them: of the rules that fit first, the first. */
function scopesOf(line) {
  const rules = rulesOf({ include: '#all' }), found = {};
  for (let at = 0; at < line.length;) {
    const fits = rules.map(rule => ({ rule, match: matchAt(rule.match ?? rule.begin, line, at) })).filter(({ match }) => match);
    if (!fits.length) break;
    const { rule, match } = fits.reduce((best, one) => one.match.index < best.match.index ? one : best);
    let end = match.index + match[0].length;
    if (rule.begin) {
      const close = matchAt(`(?:\\\\.|[^"\\\\])*(?:${rule.end})`, line, end);
      end = close.index + close[0].length;
    }
    if (rule.name) found[line.slice(match.index, end)] = rule.name;
    for (const [number, { name }] of Object.entries(rule.captures ?? {})) if (match[number] !== undefined) found[match[number]] = name;
    at = Math.max(end, at + 1);
  }
  return found;
}
function matchAt(source, line, at) {
  const pattern = new RegExp(source, 'gu');
  pattern.lastIndex = at;
  return pattern.exec(line);
}

test('the grammar colours words, types, messages, names, texts and comments', () => {
  const has = (line, wanted) => Object.entries(wanted).forEach(([text, scope]) => assert.match(scopesOf(line)[text] ?? 'none', scope, `${text} in ${line}`));
  has('interface Fork { Take(Philosopher!Taken), Release() }', { interface: /^keyword/, Fork: /^entity.name.type/, Philosopher: /^entity.name.type/ });
  has('def lying(self: Fork?): Unit {', { def: /^keyword/, lying: /^entity.name.function/, Fork: /^entity.name.type/, Unit: /^support.type/ });
  has('    receive Get(user) from self -> user ! Reply(x); resolved(self, x)', { receive: /^keyword/, Get: /message/, from: /^keyword/,
    user: /^variable/, Reply: /message/, resolved: /^entity.name.function.call/ });
  has('let f = new[Future] in spawn { print("a \\" b") }; f ! Put(5) // why "so"', { let: /^keyword/, new: /^keyword/, Future: /^entity.name.type/,
    '"a \\" b"': /^string/, 5: /^constant.numeric/, '// why "so"': /^comment/ });
  has('if true { () } else { free(me) }', { if: /^keyword/, true: /^constant.language/, else: /^keyword/, free: /^keyword/ });
});

// ----------------------------------------------------------------------------------------------- editors that are installed

function inFolder(run) {
  const folder = mkdtempSync(join(tmpdir(), 'pat-editors-'));
  try {
    writeFileSync(join(folder, 'wrong.pat'), WRONG);
    return run(folder);
  } finally { rmSync(folder, { recursive: true, force: true }); }
}
function tryEditor(context, command, words, environment) {
  const done = spawnSync(command, words, { encoding: 'utf8', timeout: PATIENCE, env: { ...process.env, ...environment } });
  if (done.error?.code === 'ENOENT') { context.skip(`${command} isn't on the path`); return null; }
  return done.stdout + done.stderr;
}

test('Neovim attaches the server, and is told of the problem', context => inFolder(folder => {
  const script = `local done = vim.wait(50000, function() return #vim.diagnostic.get(0) > 0 end, 100)
local problems = vim.diagnostic.get(0)
io.stdout:write(string.format('problems %d %s %s\\n', #problems, problems[1] and problems[1].source or '', vim.bo.filetype))
io.stdout:write('syntax ' .. vim.fn.synIDattr(vim.fn.synID(1, 1, 1), 'name') .. '\\n')
vim.cmd('qall!')`;
  writeFileSync(join(folder, 'try.lua'), script);
  const said = tryEditor(context, 'nvim', ['--headless', '-u', 'NONE', '-i', 'NONE', '--cmd', 'syntax on', '--cmd', 'filetype on', '--cmd',
    `lua dofile('${EDITORS}nvim/pat.lua')`, join(folder, 'wrong.pat'), '-c', `luafile ${join(folder, 'try.lua')}`], { HOME: folder, XDG_STATE_HOME: folder });
  if (said === null) return;
  assert.match(said, /problems 1 pat pat/);
  assert.match(said, /syntax patDeclaration/);
}));

test('Emacs has the mode, and Eglot is told of the problem', context => inFolder(folder => {
  const script = `(progn (setq eglot-sync-connect 30 eglot-autoshutdown t)
    (load "${EDITORS}emacs/pat-mode.el" nil t)
    (remove-hook (quote pat-mode-hook) (function eglot-ensure))
    (find-file "${join(folder, 'wrong.pat')}")
    (font-lock-ensure)
    (princ (format "mode %s face %s server %s\\n" major-mode (get-text-property (point-min) 'face) (file-exists-p pat-server)))
    (when (featurep 'eglot)
      (apply #'eglot--connect (eglot--guess-contact))
      (flymake-mode 1)
      (dotimes (_ 300) (unless (flymake-diagnostics) (accept-process-output nil 0.1) (flymake-start)))
      (princ (format "problems %d\\n" (length (flymake-diagnostics))))))`;
  const said = tryEditor(context, 'emacs', ['--batch', '--eval', '(package-initialize)', '--eval', script], { HOME: folder });
  if (said === null) return;
  assert.match(said, /mode pat-mode face font-lock-keyword-face server t/);
  if (/problems/.test(said)) assert.match(said, /problems 1/);
}));

test('the settings for Helix name the server, and what files are ours', () => {
  const text = readFileSync(join(EDITORS, 'helix/languages.toml'), 'utf8');
  assert.ok(existsSync(join(EDITORS, /CHECKOUT\/(companion\/server\.js)/.exec(text)[1].replace('companion', '..'))));
  assert.match(text, /file-types = \["pat"\]/);
  assert.equal(pat(['help'], Buffer.from('')).status, 0);
});
