// Tries the extension for VS Code without VS Code, by hand: `node view/editors/try_extension.js`. A small stand-in for the module
// `vscode` keeps what the extension registers; the server is flowls itself. It shows that the client speaks with the server and
// hands on what it answers, and nothing of VS Code.
'use strict';

const assert = require('assert');
const Module = require('module');
const path = require('path');

const seen = { providers: {}, handlers: {}, problems: null };
const keep = (name) => (_, provider) => {
  seen.providers[name] = provider;
  return { dispose() {} };
};
const handler = (name) => (work) => {
  seen.handlers[name] = work;
  return { dispose() {} };
};
class Range {
  constructor(...places) {
    this.places = places;
  }
}
class Made {
  constructor(...parts) {
    this.parts = parts;
  }
}
class Edits {
  set(uri, edits) {
    this.edits = edits;
  }
}
const text = 'chart C {\n  event input GO;\n  default -> A;\n  state A { outer GO -> B; }\n}\n';
const document = {
  uri: { toString: () => 'file:///c.chart' }, languageId: 'flowc-chart', version: 1, getText: () => text,
};
const stand = {
  Range, Location: Made, TextEdit: Made, DocumentSymbol: Made, Diagnostic: Made, CompletionItem: Made, Hover: Made,
  MarkdownString: Made, WorkspaceEdit: Edits,
  Uri: { parse: (uri) => uri },
  window: { showErrorMessage: (said) => assert.fail(said) },
  languages: {
    match: () => 10,
    createDiagnosticCollection: () => ({ set: (_, found) => { seen.problems = found; }, dispose() {} }),
  },
  workspace: {
    textDocuments: [document],
    getConfiguration: () => ({ get: () => '' }),
    onDidOpenTextDocument: handler('open'), onDidChangeTextDocument: handler('change'), onDidCloseTextDocument: handler('close'),
  },
};
for (const name of ['Definition', 'Reference', 'Rename', 'DocumentSymbol', 'Hover', 'CompletionItem', 'DocumentFormattingEdit']) {
  stand.languages[`register${name}Provider`] = keep(name);
}
const load = Module._load;
Module._load = (name, ...rest) => (name === 'vscode' ? stand : load(name, ...rest));
const extension = require(path.join(__dirname, 'flowc-charts', 'client.js'));

async function problems(count) {
  for (let turn = 0; turn < 600 && !(seen.problems && seen.problems.length === count); turn += 1) {
    await new Promise((done) => setTimeout(done, 50));
  }
  assert.strictEqual(seen.problems && seen.problems.length, count);
}

async function main() {
  const context = { subscriptions: [] };
  await extension.activate(context);
  assert.strictEqual(context.subscriptions.length, 11);
  await problems(1);
  assert.match(seen.problems[0].parts[1], /^no state is named B here/);
  const change = { range: { start: { line: 3, character: 24 }, end: { line: 3, character: 25 } }, text: 'A' };
  seen.handlers.change({ document: { ...document, version: 2 }, contentChanges: [change] });
  await problems(0);
  const at = { line: 3, character: 19 };
  const { providers } = seen;
  assert.deepStrictEqual((await providers.Definition.provideDefinition(document, at)).parts[1].places, [1, 14, 1, 16]);
  assert.strictEqual((await providers.Reference.provideReferences(document, at, { includeDeclaration: true })).length, 2);
  assert.strictEqual((await providers.Rename.provideRenameEdits(document, at, 'UP')).edits.length, 2);
  await assert.rejects(providers.Rename.provideRenameEdits(document, at, 'tick'), /tick is no name/);
  assert.strictEqual((await providers.DocumentSymbol.provideDocumentSymbols(document))[0].children.length, 2);
  assert.match((await providers.Hover.provideHover(document, at)).parts[0].parts[0], /event input GO;/);
  const offered = await providers.CompletionItem.provideCompletionItems(document, { line: 3, character: 24 });
  assert.strictEqual(offered[0].insertText, 'A');
  assert.strictEqual((await providers.DocumentFormattingEdit.provideDocumentFormattingEdits(document)).length, 1);
  await extension.deactivate();
  console.log('the extension asked flowls, and handed on what it answered');
}

main().catch((fault) => {
  console.error(fault);
  process.exit(1);
});
