// Stands for Visual Studio Code in a test: loads the extension, opens a plan, asks each of its providers, and writes what came as JSON.
'use strict';
const Module = require('module');
const [extension, server, name, text] = process.argv.slice(2);
const registered = {};
const listeners = {};
const shown = {};
const listen = (event) => (call) => { listeners[event] = call; return { dispose() {} }; };
const register = (kind) => (files, provider) => { registered[kind] = provider; return { dispose() {} }; };
const record = (...names) => class { constructor(...values) { names.forEach((key, at) => { this[key] = values[at]; }); } };
class Uri { constructor(path) { this.path = path; } static parse(path) { return new Uri(path); } toString() { return this.path; } }
class Range { constructor(...numbers) { const [line, character, endLine, endCharacter] = numbers; this.start = { line, character }; this.end = { line: endLine, character: endCharacter }; } }
class WorkspaceEdit { constructor() { this.changes = []; } replace(uri, range, newText) { this.changes.push({ uri: uri.toString(), range, newText }); } }
const document = { uri: new Uri(`file://${name}`), languageId: 'toml', version: 1, getText: () => text };
const stand = {
  Uri, Range, WorkspaceEdit, Location: record('uri', 'range'), Diagnostic: record('range', 'message', 'severity'), Hover: record('contents'),
  DiagnosticRelatedInformation: record('location', 'message'), CompletionItem: record('label', 'kind'), MarkdownString: record('value'),
  DocumentSymbol: record('name', 'detail', 'kind', 'range', 'selectionRange'), CodeAction: record('title', 'kind'), CodeActionKind: { QuickFix: 'quickfix' },
  workspace: {
    textDocuments: [document], getConfiguration: () => ({ get: (key) => ({ server, reference: '' }[key]) }), onDidOpenTextDocument: listen('open'),
    onDidCloseTextDocument: listen('close'), onDidChangeTextDocument: listen('change'),
  },
  window: { showErrorMessage: (why) => { throw new Error(why); }, showWarningMessage() {} },
  languages: {
    createDiagnosticCollection: () => ({ set: (uri, diagnostics) => { shown[uri.toString()] = diagnostics; } }),
    registerCompletionItemProvider: register('completion'), registerHoverProvider: register('hover'), registerDefinitionProvider: register('definition'),
    registerReferenceProvider: register('references'), registerRenameProvider: register('rename'), registerDocumentSymbolProvider: register('symbols'),
    registerCodeActionsProvider: register('actions'),
  },
};
const load = Module._load;
Module._load = (wanted, ...more) => (wanted === 'vscode' ? stand : load(wanted, ...more));
const { activate, deactivate } = require(extension);

async function until(isThere) {
  for (let count = 0; count < 3000 && !isThere(); count += 1) await new Promise((done) => { setTimeout(done, 10); });
}

async function main() {
  await activate({ subscriptions: [] });
  const uri = document.uri.toString();
  await until(() => shown[uri]);
  const finding = shown[uri].find((one) => one.severity === 0);
  const label = { line: 2, character: 10 };
  const found = {
    diagnostics: shown[uri].map((one) => [one.code, one.severity, one.range.start.line]),
    related: finding.relatedInformation.map((one) => one.location.range.start.line),
    hover: (await registered.hover.provideHover(document, label)).contents.value,
    definition: (await registered.definition.provideDefinition(document, label)).map((one) => one.range.start.line),
    references: (await registered.references.provideReferences(document, label, { includeDeclaration: true })).length,
    placeholder: (await registered.rename.prepareRename(document, label)).placeholder,
    rename: (await registered.rename.provideRenameEdits(document, label, 'X')).changes.map((one) => one.newText),
    symbols: (await registered.symbols.provideDocumentSymbols(document)).map((one) => one.name),
    actions: (await registered.actions.provideCodeActions(document, finding.range, { diagnostics: [finding] })).map((one) => one.title),
    completion: (await registered.completion.provideCompletionItems(document, { line: 3, character: 0 })).map((one) => one.label),
  };
  delete shown[uri];
  listeners.change({ document, contentChanges: [{ range: new Range(7, 10, 7, 11), text: '1' }] });
  await until(() => shown[uri]);
  found.mended = shown[uri].filter((one) => one.severity === 0).length;
  listeners.close(document);
  await deactivate();
  console.log(JSON.stringify(found));
}

main().catch((fault) => { console.error(fault.stack); process.exit(1); });
