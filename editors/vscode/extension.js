// The extension: it starts `cise lsp`, tells it of open specifications, and shows what it says.
"use strict";
const vscode = require("vscode");
const { Connection } = require("./connection");
const protocol = require("./protocol");

const LANGUAGE = "cise";
const CAPABILITIES = {
  textDocument: {
    codeAction: { resolveSupport: { properties: ["edit"] } },
    completion: { completionItem: { snippetSupport: true } },
  },
  window: { workDoneProgress: true },
  workspace: { codeLens: { refreshSupport: true } },
};
// How often the server is started anew by itself.
const MOST_STARTS = 3;

class Client {
  constructor(context) {
    this.diagnostics = vscode.languages.createDiagnosticCollection(LANGUAGE);
    this.lenses = new vscode.EventEmitter();
    this.progress = new Map();
    this.starts = 0;
    context.subscriptions.push(this.diagnostics, this.lenses);
  }

  async start() {
    const program = vscode.workspace.getConfiguration("cise").get("program") || "cise";
    const folder = (vscode.workspace.workspaceFolders || [])[0];
    this.connection = new Connection(program, folder && folder.uri.scheme === "file" ? folder.uri.fsPath : undefined, {
      answers: {
        "workspace/codeLens/refresh": () => {
          this.lenses.fire();
          return null;
        },
      },
      notices: {
        "textDocument/publishDiagnostics": (it) => this.diagnostics.set(vscode.Uri.parse(it.uri), it.diagnostics.map(protocol.diagnostic)),
        "$/progress": (it) => this.tellProgress(it),
      },
      ended: (why) => this.ended(program, why),
    });
    try {
      await this.connection.request("initialize", { processId: process.pid, rootUri: null, capabilities: CAPABILITIES });
    } catch (_) {
      return;
    }
    this.connection.notify("initialized", {});
    vscode.workspace.textDocuments.forEach((it) => this.opened(it));
  }

  async stop() {
    for (const end of this.progress.values()) end();
    this.progress.clear();
    this.diagnostics.clear();
    if (this.connection) await this.connection.stop();
  }

  ended(program, why) {
    this.diagnostics.clear();
    for (const end of this.progress.values()) end();
    this.progress.clear();
    if (++this.starts < MOST_STARTS) {
      this.start();
    } else {
      vscode.window.showErrorMessage(`The server '${program} lsp' has ended (${why}). The setting cise.program says where the script is.`);
    }
  }

  tellProgress({ token, value }) {
    if (value.kind === "begin") {
      const options = { location: vscode.ProgressLocation.Window, title: value.title };
      vscode.window.withProgress(options, () => new Promise((resolve) => this.progress.set(token, resolve)));
    } else if (value.kind === "end" && this.progress.has(token)) {
      this.progress.get(token)();
      this.progress.delete(token);
    }
  }

  opened(document) {
    if (document.languageId !== LANGUAGE) return;
    const told = { uri: document.uri.toString(), languageId: LANGUAGE, version: document.version, text: document.getText() };
    this.connection.notify("textDocument/didOpen", { textDocument: told });
  }

  changed({ document, contentChanges }) {
    if (document.languageId !== LANGUAGE || !contentChanges.length) return;
    const changes = contentChanges.map((it) => ({ range: protocol.plainRange(it.range), text: it.text }));
    const told = { uri: document.uri.toString(), version: document.version };
    this.connection.notify("textDocument/didChange", { textDocument: told, contentChanges: changes });
  }

  closed(document) {
    if (document.languageId !== LANGUAGE) return;
    this.connection.notify("textDocument/didClose", { textDocument: { uri: document.uri.toString() } });
  }

  // What a request gives, made by `made`; nothing where it fails, unless that is to be told.
  async ask(method, params, token, made, isTold) {
    try {
      const found = await this.connection.request(method, params, token);
      return found === null || found === undefined ? undefined : made(found);
    } catch (error) {
      if (isTold) throw error;
      return undefined;
    }
  }
}

// The functions that the editor calls for each thing that the server can.
function providers(client) {
  const { at } = protocol;
  const whole = (document) => ({ textDocument: { uri: document.uri.toString() } });
  const rows = (made) => (found) => found.map(made);
  const { languages } = vscode;
  const ask = (...it) => client.ask(...it);
  return [
    languages.registerHoverProvider(LANGUAGE, {
      provideHover: (document, place, token) => ask("textDocument/hover", at(document, place), token, protocol.hover),
    }),
    languages.registerDefinitionProvider(LANGUAGE, {
      provideDefinition: (document, place, token) => ask("textDocument/definition", at(document, place), token, protocol.location),
    }),
    languages.registerReferenceProvider(LANGUAGE, {
      provideReferences: (document, place, context, token) =>
        ask("textDocument/references", { ...at(document, place), context: { includeDeclaration: context.includeDeclaration } }, token, rows(protocol.location)),
    }),
    languages.registerDocumentHighlightProvider(LANGUAGE, {
      provideDocumentHighlights: (document, place, token) =>
        ask("textDocument/documentHighlight", at(document, place), token, rows((it) => new vscode.DocumentHighlight(protocol.range(it.range)))),
    }),
    languages.registerDocumentSymbolProvider(LANGUAGE, {
      provideDocumentSymbols: (document, token) => ask("textDocument/documentSymbol", whole(document), token, rows(protocol.symbol)),
    }),
    languages.registerFoldingRangeProvider(LANGUAGE, {
      provideFoldingRanges: (document, _, token) => ask("textDocument/foldingRange", whole(document), token, rows(protocol.fold)),
    }),
    languages.registerDocumentFormattingEditProvider(LANGUAGE, {
      provideDocumentFormattingEdits: (document, options, token) =>
        ask("textDocument/formatting", { ...whole(document), options: { ...options } }, token, protocol.edits, true),
    }),
    languages.registerRenameProvider(LANGUAGE, {
      prepareRename: async (document, place, token) => {
        const made = (it) => ({ range: protocol.range(it.range), placeholder: it.placeholder });
        const found = await ask("textDocument/prepareRename", at(document, place), token, made);
        if (!found) throw new Error("there is no name here");
        return found;
      },
      provideRenameEdits: (document, place, newName, token) =>
        ask("textDocument/rename", { ...at(document, place), newName }, token, protocol.workspaceEdit, true),
    }),
    languages.registerCompletionItemProvider(
      LANGUAGE,
      { provideCompletionItems: (document, place, token) => ask("textDocument/completion", at(document, place), token, rows(protocol.completion)) },
      ...["(", ",", ":"],
    ),
    languages.registerSignatureHelpProvider(
      LANGUAGE,
      { provideSignatureHelp: (document, place, token) => ask("textDocument/signatureHelp", at(document, place), token, protocol.signatures) },
      ...["(", ","],
    ),
    languages.registerCodeLensProvider(LANGUAGE, {
      onDidChangeCodeLenses: client.lenses.event,
      provideCodeLenses: (document, token) => ask("textDocument/codeLens", whole(document), token, rows(protocol.lens)),
    }),
    languages.registerCodeActionsProvider(
      LANGUAGE,
      {
        provideCodeActions: (document, where, context, token) => {
          const about = { diagnostics: context.diagnostics.map(protocol.plainDiagnostic) };
          const params = { ...whole(document), range: protocol.plainRange(where), context: about };
          return ask("textDocument/codeAction", params, token, rows((it) => protocol.action(it, [...context.diagnostics])));
        },
        resolveCodeAction: async (action, token) => {
          if (action.data) action.edit = await ask("codeAction/resolve", action.data, token, (it) => protocol.workspaceEdit(it.edit), true);
          return action;
        },
      },
      { providedCodeActionKinds: [vscode.CodeActionKind.QuickFix] },
    ),
  ];
}

let client;

async function activate(context) {
  client = new Client(context);
  const { workspace } = vscode;
  context.subscriptions.push(
    workspace.onDidOpenTextDocument((it) => client.opened(it)),
    workspace.onDidChangeTextDocument((it) => client.changed(it)),
    workspace.onDidCloseTextDocument((it) => client.closed(it)),
    vscode.commands.registerCommand("cise.restart", async () => {
      await client.stop();
      client.starts = 0;
      await client.start();
    }),
    ...providers(client),
  );
  await client.start();
}

function deactivate() {
  return client && client.stop();
}

module.exports = { activate, deactivate };
