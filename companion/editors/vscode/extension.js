// Joins VS Code to the language server (companion/server.js), by messages over standard streams. What it shows is what the server says.

const { spawn } = require('node:child_process');
const { realpathSync } = require('node:fs');
const path = require('node:path');
const vscode = require('vscode');

const HEADER_END = '\r\n\r\n';

/** The server's process, with a promise for each request. */
class Client {
  constructor(command, words, notified) {
    Object.assign(this, { notified, kept: Buffer.alloc(0), asked: new Map(), number: 0 });
    this.process = spawn(command, words, { stdio: ['pipe', 'pipe', 'ignore'] });
    this.process.stdout.on('data', chunk => this.read(chunk));
    this.process.stdin.on('error', () => {});
    this.process.on('error', problem => vscode.window.showErrorMessage(`pat: ${command} can't be started: ${problem.message}`));
    this.process.on('exit', () => this.asked.forEach(({ reject }) => reject(new Error('the server has ended'))));
  }
  read(chunk) {
    this.kept = Buffer.concat([this.kept, chunk]);
    for (let end = this.kept.indexOf(HEADER_END); end >= 0; end = this.kept.indexOf(HEADER_END)) {
      const start = end + HEADER_END.length, size = Number(/content-length: *(\d+)/i.exec(this.kept.toString('latin1', 0, end))?.[1]);
      if (!(this.kept.length >= start + size)) return;
      this.receive(JSON.parse(this.kept.toString('utf8', start, start + size)));
      this.kept = this.kept.subarray(start + size);
    }
  }
  receive({ id, method, params, result, error }) {
    if (method) return this.notified(method, params);
    const waiting = this.asked.get(id);
    this.asked.delete(id);
    return error ? waiting?.reject(new Error(error.message)) : waiting?.resolve(result);
  }
  send(message) {
    const body = Buffer.from(JSON.stringify({ jsonrpc: '2.0', ...message }));
    this.process.stdin.write(Buffer.concat([Buffer.from(`Content-Length: ${body.length}${HEADER_END}`), body]));
  }
  notify(method, params) { this.send({ method, params }); }
  request(method, params) {
    const id = ++this.number;
    return new Promise((resolve, reject) => { this.asked.set(id, { resolve, reject }); this.send({ id, method, params }); });
  }
}

const toRange = ({ start, end }) => new vscode.Range(start.line, start.character, end.line, end.character);
const toLocation = ({ uri, range }) => new vscode.Location(vscode.Uri.parse(uri), toRange(range));
function toDiagnostic({ range, message, severity, code, source, relatedInformation = [] }) {
  const diagnostic = new vscode.Diagnostic(toRange(range), message, severity - 1);
  diagnostic.relatedInformation = relatedInformation.map(one =>
    new vscode.DiagnosticRelatedInformation(toLocation(one.location), one.message));
  return Object.assign(diagnostic, { code, source });
}
function toSymbol({ name, kind, range, selectionRange, children = [] }) {
  const symbol = new vscode.DocumentSymbol(name, '', kind - 1, toRange(range), toRange(selectionRange));
  symbol.children = children.map(toSymbol);
  return symbol;
}

let client = null;

exports.activate = context => {
  const settings = vscode.workspace.getConfiguration('pat'), problems = vscode.languages.createDiagnosticCollection('pat');
  const server = settings.get('server') || path.join(realpathSync(__dirname), '../../server.js');
  client = new Client(settings.get('node') || 'node', [server], (method, params) => {
    if (method === 'textDocument/publishDiagnostics') problems.set(vscode.Uri.parse(params.uri), params.diagnostics.map(toDiagnostic));
  });
  const ready = client.request('initialize', { capabilities: {}, initializationOptions: { pat: settings.get('program') || undefined } })
    .then(() => client.notify('initialized', {}));
  context.subscriptions.push(problems, ...followTexts(ready), ...provide(ready), { dispose: exports.deactivate });
  return ready;
};
exports.deactivate = () => {
  client?.process.kill();
  client = null;
};

/** Tells the server what is open, and each change. */
function followTexts(ready) {
  const isOurs = document => document.languageId === 'pat', tell = (method, params) => ready.then(() => client?.notify(method, params));
  const open = document => isOurs(document) && tell('textDocument/didOpen', { textDocument: { uri: String(document.uri), languageId: 'pat',
    version: document.version, text: document.getText() } });
  vscode.workspace.textDocuments.forEach(open);
  return [
    vscode.workspace.onDidOpenTextDocument(open),
    vscode.workspace.onDidChangeTextDocument(({ document, contentChanges }) => isOurs(document) && contentChanges.length
      && tell('textDocument/didChange', { textDocument: { uri: String(document.uri), version: document.version },
        contentChanges: contentChanges.map(({ range, text }) => ({ range: { start: range.start, end: range.end }, text })) })),
    vscode.workspace.onDidCloseTextDocument(document => isOurs(document)
      && tell('textDocument/didClose', { textDocument: { uri: String(document.uri) } })),
  ];
}

function provide(ready) {
  const { languages } = vscode, ask = (method, document, more) => ready.then(() =>
    client.request(`textDocument/${method}`, { textDocument: { uri: String(document.uri) }, ...more }));
  const at = ({ line, character }) => ({ position: { line, character } });
  const provideHover = async (document, position) => {
    const found = await ask('hover', document, at(position));
    return found && new vscode.Hover(new vscode.MarkdownString(found.contents.value), toRange(found.range));
  };
  const provideDefinition = async (document, position) => {
    const found = await ask('definition', document, at(position));
    return found && toLocation(found);
  };
  const prepareRename = async (document, position) => {
    const found = await ask('prepareRename', document, at(position));
    if (!found) throw new Error('only the names of variables can be changed here');
    return { range: toRange(found.range), placeholder: found.placeholder };
  };
  const provideRenameEdits = async (document, position, newName) => {
    const { changes } = await ask('rename', document, { ...at(position), newName }), edit = new vscode.WorkspaceEdit();
    for (const [uri, edits] of Object.entries(changes)) {
      edits.forEach(one => edit.replace(vscode.Uri.parse(uri), toRange(one.range), one.newText));
    }
    return edit;
  };
  const provideDocumentFormattingEdits = async document =>
    (await ask('formatting', document, { options: {} })).map(one => new vscode.TextEdit(toRange(one.range), one.newText));
  const provideDocumentSymbols = async document => (await ask('documentSymbol', document, {})).map(toSymbol);
  return [
    languages.registerHoverProvider('pat', { provideHover }),
    languages.registerDefinitionProvider('pat', { provideDefinition }),
    languages.registerRenameProvider('pat', { prepareRename, provideRenameEdits }),
    languages.registerDocumentFormattingEditProvider('pat', { provideDocumentFormattingEdits }),
    languages.registerDocumentSymbolProvider('pat', { provideDocumentSymbols }),
  ];
}
