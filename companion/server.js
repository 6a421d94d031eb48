#!/usr/bin/env node
// A language server for editors, over standard streams: problems as one types, hover, definitions, new names, layout, outline.
// Whether a program is right is `pat`'s answer, which it asks for; the rest is read from the text.

import { findPat, isMain } from './find.js';
import {
  Connection, Failure, INTERNAL_ERROR, INVALID_PARAMS, INVALID_REQUEST, NOT_INITIALIZED, UNKNOWN_METHOD,
} from './lsp/connection.js';
import { TextDocument } from './lsp/documents.js';
import { Checks } from './lsp/checks.js';
import { definition, diagnosticsOf, formatting, hover, prepareRename, rename, symbols } from './lsp/features.js';

const CAPABILITIES = {
  positionEncoding: 'utf-16', textDocumentSync: { openClose: true, change: 2 }, hoverProvider: true, definitionProvider: true,
  renameProvider: { prepareProvider: true }, documentFormattingProvider: true, documentSymbolProvider: true,
};
const INCOMPLETE = { version: null, text: null };

export class Server {
  constructor(input, output, exit) {
    Object.assign(this, { exit, documents: new Map(), found: new Map(), initialized: false, closing: false, checks: null });
    this.connection = new Connection(input, output, message => this.receive(message), () => this.exit(this.closing ? 0 : 1));
  }

  receive({ id, method, params }) {
    const isRequest = id !== undefined, handle = Object.hasOwn(HANDLERS, method) ? HANDLERS[method] : null;
    if (!this.initialized && !isRequest && method !== 'exit') return;
    try {
      if (!this.initialized && isRequest && method !== 'initialize') throw new Failure(NOT_INITIALIZED, 'initialize comes first');
      if (this.closing && isRequest) throw new Failure(INVALID_REQUEST, 'the server is shutting down');
      if (!handle && isRequest) throw new Failure(UNKNOWN_METHOD, `${method} is no method of this server`);
      const result = handle ? handle(this, params ?? {}) : undefined;
      if (isRequest) this.connection.send({ id, result: result ?? null });
    } catch (problem) {
      const failure = problem instanceof Failure ? problem : new Failure(INTERNAL_ERROR, `${problem.name}: ${problem.message}`);
      if (isRequest) this.connection.fail(id, failure);
      else this.connection.notify('window/logMessage', { type: 1, message: `${method}: ${failure.message}` });
    }
  }
  initialize({ initializationOptions }) {
    this.initialized = true;
    this.checks = new Checks(initializationOptions?.pat || findPat(), (document, answer) => this.tell(document, answer));
    return { capabilities: CAPABILITIES, serverInfo: { name: 'pat' } };
  }
  documentOf({ textDocument }) {
    return this.documents.get(textDocument?.uri) ?? fail(INVALID_PARAMS, `${textDocument?.uri} isn't open`);
  }
  open({ textDocument }) {
    const { uri, version = 0, text } = textDocument ?? INCOMPLETE;
    if (typeof uri !== 'string' || typeof text !== 'string') fail(INVALID_PARAMS, 'a document needs a uri and a text');
    this.documents.set(uri, new TextDocument(uri, version, text));
    this.checks?.ask(this.documents.get(uri));
  }
  change({ textDocument, contentChanges }) {
    const document = this.documentOf({ textDocument });
    document.change(contentChanges ?? fail(INVALID_PARAMS, 'a change without changes'), textDocument.version ?? document.version + 1);
    this.found.delete(document.uri);
    this.checks?.ask(document);
  }
  close({ textDocument }) {
    const { uri } = this.documentOf({ textDocument });
    this.documents.delete(uri); this.found.delete(uri); this.checks?.forget(uri);
    this.connection.notify('textDocument/publishDiagnostics', { uri, diagnostics: [] });
  }
  tell(document, answer) {
    const { uri, version } = document;
    if (this.documents.get(uri) !== document) return;
    if (answer.status === 0) this.found.set(uri, answer.text);
    this.connection.notify('textDocument/publishDiagnostics', { uri, version, diagnostics: diagnosticsOf(document, answer) });
  }
}
function fail(code, message) { throw new Failure(code, message); }

const about = feature => (server, params) =>
  feature(server.documentOf(params), params.position, server.found.get(params.textDocument.uri));
const HANDLERS = {
  initialize: (server, params) => server.initialize(params),
  initialized: () => {},
  shutdown: server => { server.closing = true; },
  exit: server => server.exit(server.closing ? 0 : 1),
  'textDocument/didOpen': (server, params) => server.open(params),
  'textDocument/didChange': (server, params) => server.change(params),
  'textDocument/didClose': (server, params) => server.close(params),
  'textDocument/hover': about(hover),
  'textDocument/definition': about(definition),
  'textDocument/prepareRename': about(prepareRename),
  'textDocument/rename': (server, params) => rename(server.documentOf(params), params.position, params.newName),
  'textDocument/formatting': about(formatting),
  'textDocument/documentSymbol': about(symbols),
};

if (isMain(import.meta.url)) {
  process.stdout.on('error', () => process.exit(1));
  new Server(process.stdin, process.stdout, status => process.exit(status));
}
