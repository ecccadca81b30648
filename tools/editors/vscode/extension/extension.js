// Visual Studio Code: starts j39plan-lsp, tells it of files in TOML, and shows what it answers. It needs no library but those of the editor.
'use strict';
const { spawn } = require('child_process');
const vscode = require('vscode');

// The messages of a server over its standard input and output (the language server protocol 3.17).
class Connection {
  constructor(command, words, ended) {
    this.number = 0;
    this.waiting = new Map();
    this.told = new Map();
    this.read = Buffer.alloc(0);
    this.server = spawn(command, words, { stdio: ['pipe', 'pipe', 'inherit'] });
    this.server.stdout.on('data', (data) => this.take(data));
    this.server.stdin.on('error', () => {});
    this.server.on('error', (fault) => this.end(`${command}: ${fault.message}`, ended));
    this.server.on('exit', (status) => this.end(status ? `${command} has ended with status ${status}` : '', ended));
  }

  end(why, ended) {
    for (const { reject } of this.waiting.values()) reject(new Error(why || 'the server has ended'));
    this.waiting.clear();
    if (why) ended(why);
  }

  take(data) {
    this.read = Buffer.concat([this.read, data]);
    for (;;) {
      const head = this.read.indexOf('\r\n\r\n');
      const length = head < 0 ? null : /Content-Length: (\d+)/i.exec(this.read.toString('ascii', 0, head));
      if (!length || this.read.length < head + 4 + Number(length[1])) return;
      const message = JSON.parse(this.read.toString('utf8', head + 4, head + 4 + Number(length[1])));
      this.read = this.read.subarray(head + 4 + Number(length[1]));
      const waiting = this.waiting.get(message.id);
      this.waiting.delete(message.id);
      if (waiting) message.error ? waiting.reject(new Error(message.error.message)) : waiting.resolve(message.result);
      else if (this.told.has(message.method)) this.told.get(message.method)(message.params);
    }
  }

  send(message) {
    const body = Buffer.from(JSON.stringify({ jsonrpc: '2.0', ...message }));
    this.server.stdin.write(`Content-Length: ${body.length}\r\n\r\n`);
    this.server.stdin.write(body);
  }

  tell(method, params) {
    this.send({ method, params });
  }

  ask(method, params, token) {
    const id = ++this.number;
    if (token) token.onCancellationRequested(() => this.tell('$/cancelRequest', { id }));
    return new Promise((resolve, reject) => {
      this.waiting.set(id, { resolve, reject });
      this.send({ id, method, params });
    });
  }
}

// What the editor has, as the protocol has it, and the other way round.
const position = (at) => ({ line: at.line, character: at.character });
const range = (span) => new vscode.Range(span.start.line, span.start.character, span.end.line, span.end.character);
const spanOf = (span) => ({ start: position(span.start), end: position(span.end) });
const location = (told) => new vscode.Location(vscode.Uri.parse(told.uri), range(told.range));
const about = (document) => ({ textDocument: { uri: document.uri.toString() } });
const placeIn = (document, at) => ({ ...about(document), position: position(at) });

function diagnostic(told) {
  const found = new vscode.Diagnostic(range(told.range), told.message, told.severity - 1);
  found.source = told.source;
  found.code = told.code;
  found.relatedInformation = (told.relatedInformation || []).map((one) => new vscode.DiagnosticRelatedInformation(location(one.location), one.message));
  found.told = told;
  return found;
}

function edit(told) {
  const found = new vscode.WorkspaceEdit();
  for (const [uri, changes] of Object.entries(told.changes)) for (const one of changes) found.replace(vscode.Uri.parse(uri), range(one.range), one.newText);
  return found;
}

function item(told) {
  const found = new vscode.CompletionItem(told.label, told.kind - 1);
  Object.assign(found, { detail: told.detail, sortText: told.sortText, filterText: told.filterText, insertText: told.textEdit.newText, range: range(told.textEdit.range) });
  return found;
}

function symbol(told) {
  const found = new vscode.DocumentSymbol(told.name, told.detail, told.kind - 1, range(told.range), range(told.selectionRange));
  found.children = told.children.map(symbol);
  return found;
}

function action(told) {
  const found = new vscode.CodeAction(told.title, vscode.CodeActionKind.QuickFix);
  Object.assign(found, { edit: edit(told.edit), isPreferred: told.isPreferred });
  return found;
}

// Registers what the server can be asked for.
function providers(server, files) {
  const { languages } = vscode;
  const ask = (method, params, token) => server.ask(`textDocument/${method}`, params, token);
  return [
    languages.registerCompletionItemProvider(files, {
      provideCompletionItems: async (document, at, token) => (await ask('completion', placeIn(document, at), token)).items.map(item),
    }, '"', '[', '.', '=', ' '),
    languages.registerHoverProvider(files, {
      provideHover: async (document, at, token) => {
        const told = await ask('hover', placeIn(document, at), token);
        return told && new vscode.Hover(new vscode.MarkdownString(told.contents.value));
      },
    }),
    languages.registerDefinitionProvider(files, {
      provideDefinition: async (document, at, token) => (await ask('definition', placeIn(document, at), token)).map(location),
    }),
    languages.registerReferenceProvider(files, {
      provideReferences: async (document, at, context, token) => (await ask('references', { ...placeIn(document, at), context }, token)).map(location),
    }),
    languages.registerRenameProvider(files, {
      prepareRename: async (document, at, token) => {
        const told = await ask('prepareRename', placeIn(document, at), token);
        if (!told) throw new Error('there is no label here');
        return { range: range(told.range), placeholder: told.placeholder };
      },
      provideRenameEdits: async (document, at, newName, token) => edit(await ask('rename', { ...placeIn(document, at), newName }, token)),
    }),
    languages.registerDocumentSymbolProvider(files, {
      provideDocumentSymbols: async (document, token) => (await ask('documentSymbol', about(document), token)).map(symbol),
    }),
    languages.registerCodeActionsProvider(files, {
      provideCodeActions: async (document, span, context, token) => {
        const diagnostics = context.diagnostics.map((one) => one.told).filter(Boolean);
        if (!diagnostics.length) return [];
        return (await ask('codeAction', { ...about(document), range: spanOf(span), context: { diagnostics } }, token)).map(action);
      },
    }, { providedCodeActionKinds: [vscode.CodeActionKind.QuickFix] }),
  ];
}

// Tells the server of the files that are open, and of what is written in them.
function files(server, isOurs) {
  const { workspace } = vscode;
  const open = (document) => isOurs(document) && server.tell('textDocument/didOpen', {
    textDocument: { uri: document.uri.toString(), languageId: 'toml', version: document.version, text: document.getText() },
  });
  workspace.textDocuments.forEach(open);
  return [
    workspace.onDidOpenTextDocument(open),
    workspace.onDidCloseTextDocument((document) => isOurs(document) && server.tell('textDocument/didClose', about(document))),
    workspace.onDidChangeTextDocument(({ document, contentChanges }) => isOurs(document) && contentChanges.length && server.tell('textDocument/didChange', {
      textDocument: { uri: document.uri.toString(), version: document.version },
      contentChanges: contentChanges.map((one) => ({ range: spanOf(one.range), text: one.text })),
    })),
  ];
}

let server;

async function activate(context) {
  const settings = vscode.workspace.getConfiguration('j39plan');
  const shown = vscode.languages.createDiagnosticCollection('j39plan');
  server = new Connection(settings.get('server'), ['--stdio'], (why) => vscode.window.showErrorMessage(why));
  server.told.set('textDocument/publishDiagnostics', ({ uri, diagnostics }) => shown.set(vscode.Uri.parse(uri), diagnostics.map(diagnostic)));
  server.told.set('window/showMessage', ({ message }) => vscode.window.showWarningMessage(message));
  await server.ask('initialize', { processId: process.pid, rootUri: null, capabilities: {}, initializationOptions: { reference: settings.get('reference') } });
  server.tell('initialized', {});
  const language = { language: 'toml' };
  context.subscriptions.push(shown, ...providers(server, language), ...files(server, (document) => document.languageId === 'toml'));
}

async function deactivate() {
  if (!server) return;
  await server.ask('shutdown', null).catch(() => {});
  server.tell('exit', null);
}

module.exports = { activate, deactivate };
