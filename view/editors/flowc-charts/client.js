// Charts in VS Code by the language server flowls. The client is a small one of its own: the extension needs no other package.
'use strict';

const childProcess = require('child_process');
const path = require('path');
const vscode = require('vscode');

const CHARTS = { language: 'flowc-chart', scheme: 'file', pattern: '**/*.chart' };

// A server that is spoken to over its standard input and output.
class Connection {
  constructor(command, notified) {
    this.notified = notified;
    this.waiting = new Map();
    this.number = 0;
    this.received = Buffer.alloc(0);
    this.process = childProcess.spawn(command, [], { stdio: ['pipe', 'pipe', 'inherit'] });
    this.process.on('error', (fault) => vscode.window.showErrorMessage(`flowls: ${fault.message}`));
    this.process.stdin.on('error', () => {});
    this.process.stdout.on('data', (data) => this.receive(data));
  }

  send(message) {
    const body = Buffer.from(JSON.stringify({ jsonrpc: '2.0', ...message }), 'utf8');
    this.process.stdin.write(`Content-Length: ${body.length}\r\n\r\n`);
    this.process.stdin.write(body);
  }

  notify(method, params) {
    this.send({ method, params });
  }

  request(method, params) {
    const id = ++this.number;
    this.send({ id, method, params });
    return new Promise((done, failed) => this.waiting.set(id, { done, failed }));
  }

  receive(data) {
    this.received = Buffer.concat([this.received, data]);
    for (;;) {
      const end = this.received.indexOf('\r\n\r\n');
      const length = end < 0 ? null : /Content-Length: (\d+)/i.exec(this.received.toString('latin1', 0, end));
      if (!length || this.received.length < end + 4 + Number(length[1])) {
        return;
      }
      const last = end + 4 + Number(length[1]);
      const message = JSON.parse(this.received.toString('utf8', end + 4, last));
      this.received = this.received.subarray(last);
      this.take(message);
    }
  }

  take(message) {
    const asked = this.waiting.get(message.id);
    if (message.method) {
      this.notified(message);
    } else if (asked) {
      this.waiting.delete(message.id);
      if (message.error) {
        asked.failed(new Error(message.error.message));
      } else {
        asked.done(message.result);
      }
    }
  }
}

const range = (found) =>
  new vscode.Range(found.start.line, found.start.character, found.end.line, found.end.character);
const location = (found) => new vscode.Location(vscode.Uri.parse(found.uri), range(found.range));
const edit = (found) => new vscode.TextEdit(range(found.range), found.newText);

function symbol(found) {
  // The protocol counts kinds from 1, and VS Code from 0.
  const made = new vscode.DocumentSymbol(found.name, found.detail, found.kind - 1, range(found.range), range(found.selectionRange));
  made.children = found.children.map(symbol);
  return made;
}

function problem(found) {
  const made = new vscode.Diagnostic(range(found.range), found.message, found.severity - 1);
  made.code = found.code;
  made.source = found.source;
  return made;
}

function completion(found) {
  const made = new vscode.CompletionItem(found.label, found.kind - 1);
  made.detail = found.detail;
  made.range = range(found.textEdit.range);
  made.insertText = found.textEdit.newText;
  return made;
}

function changes(found) {
  const made = new vscode.WorkspaceEdit();
  for (const [uri, edits] of Object.entries(found.changes)) {
    made.set(vscode.Uri.parse(uri), edits.map(edit));
  }
  return made;
}

// The providers, each of which asks the server.
function providers(connection) {
  const at = (document, position) => ({
    textDocument: { uri: document.uri.toString() },
    position: { line: position.line, character: position.character },
  });
  const ask = (word, given) => connection.request(`textDocument/${word}`, given);
  const { languages } = vscode;
  return [
    languages.registerDefinitionProvider(CHARTS, {
      provideDefinition: async (document, position) => {
        const found = await ask('definition', at(document, position));
        return found && location(found);
      },
    }),
    languages.registerReferenceProvider(CHARTS, {
      provideReferences: async (document, position, context) =>
        (await ask('references', { ...at(document, position), context })).map(location),
    }),
    languages.registerRenameProvider(CHARTS, {
      provideRenameEdits: async (document, position, newName) =>
        changes(await ask('rename', { ...at(document, position), newName })),
    }),
    languages.registerDocumentSymbolProvider(CHARTS, {
      provideDocumentSymbols: async (document) =>
        (await ask('documentSymbol', { textDocument: { uri: document.uri.toString() } })).map(symbol),
    }),
    languages.registerHoverProvider(CHARTS, {
      provideHover: async (document, position) => {
        const found = await ask('hover', at(document, position));
        return found && new vscode.Hover(new vscode.MarkdownString(found.contents.value), range(found.range));
      },
    }),
    languages.registerCompletionItemProvider(CHARTS, {
      provideCompletionItems: async (document, position) => (await ask('completion', at(document, position))).map(completion),
    }, '@', '/', '>', '[', '{'),
    languages.registerDocumentFormattingEditProvider(CHARTS, {
      provideDocumentFormattingEdits: async (document) =>
        (await ask('formatting', { textDocument: { uri: document.uri.toString() } })).map(edit),
    }),
  ];
}

let connection = null;

async function activate(context) {
  const told = vscode.languages.createDiagnosticCollection('flowls');
  const server = vscode.workspace.getConfiguration('flowc').get('server') || path.join(__dirname, '..', '..', 'flowls');
  connection = new Connection(server, (message) => {
    if (message.method === 'textDocument/publishDiagnostics') {
      told.set(vscode.Uri.parse(message.params.uri), message.params.diagnostics.map(problem));
    }
  });
  await connection.request('initialize', { processId: process.pid, rootUri: null, capabilities: {} });
  connection.notify('initialized', {});
  const isChart = (document) => vscode.languages.match(CHARTS, document) > 0;
  const open = (document) => isChart(document) && connection.notify('textDocument/didOpen', {
    textDocument: {
      uri: document.uri.toString(), languageId: document.languageId, version: document.version, text: document.getText(),
    },
  });
  vscode.workspace.textDocuments.forEach(open);
  context.subscriptions.push(
    told,
    vscode.workspace.onDidOpenTextDocument(open),
    vscode.workspace.onDidChangeTextDocument(({ document, contentChanges }) => isChart(document) && contentChanges.length > 0
      && connection.notify('textDocument/didChange', {
        textDocument: { uri: document.uri.toString(), version: document.version },
        contentChanges: contentChanges.map((each) => ({ range: each.range, text: each.text })),
      })),
    vscode.workspace.onDidCloseTextDocument((document) => isChart(document)
      && connection.notify('textDocument/didClose', { textDocument: { uri: document.uri.toString() } })),
    ...providers(connection),
  );
}

async function deactivate() {
  if (connection) {
    await connection.request('shutdown');
    connection.notify('exit');
    connection = null;
  }
}

module.exports = { activate, deactivate };
