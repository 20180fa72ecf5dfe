// Run by checks/editor with Node: the extension against an editor that is a stand-in for Visual Studio Code's interface. It shows that the extension
// starts, speaks with the server and turns what it says into the interface's values; that the real editor shows them it can't show.
"use strict";
const fs = require("fs");
const path = require("path");
const Module = require("module");

class Position {
  constructor(line, character) {
    Object.assign(this, { line, character });
  }
}
class Range {
  constructor(start, end) {
    Object.assign(this, { start, end });
  }
}
const made = (...names) =>
  class {
    constructor(...values) {
      names.forEach((it, at) => (this[it] = values[at]));
    }
  };
class WorkspaceEdit {
  constructor() {
    this.rows = new Map();
  }
  set(uri, edits) {
    this.rows.set(uri.toString(), edits);
  }
}
class EventEmitter {
  constructor() {
    this.listeners = [];
    this.event = (it) => (this.listeners.push(it), { dispose() {} });
  }
  fire(it) {
    this.listeners.forEach((listener) => listener(it));
  }
  dispose() {}
}
const providers = {};
const events = { open: new EventEmitter(), change: new EventEmitter(), close: new EventEmitter() };
const documents = [];
const shown = new Map();
const commands = {};
const register = (name) => (language, provider) => ((providers[name] = provider), { dispose() {} });
const vscode = {
  ...{ Position, Range, WorkspaceEdit, EventEmitter },
  Location: made("uri", "range"),
  Diagnostic: made("range", "message", "severity"),
  DiagnosticRelatedInformation: made("location", "message"),
  Hover: made("contents", "range"),
  MarkdownString: made("value"),
  DocumentSymbol: made("name", "detail", "kind", "range", "selectionRange"),
  DocumentHighlight: made("range"),
  CompletionItem: made("label", "kind"),
  SnippetString: made("value"),
  SignatureHelp: made(),
  SignatureInformation: made("label", "documentation"),
  ParameterInformation: made("label"),
  TextEdit: made("range", "newText"),
  CodeLens: made("range", "command"),
  CodeAction: made("title", "kind"),
  CodeActionKind: { QuickFix: "quickfix" },
  FoldingRange: made("start", "end", "kind"),
  FoldingRangeKind: { Comment: 1 },
  ProgressLocation: { Window: 10 },
  Uri: { parse: (text) => ({ toString: () => text, scheme: "file", fsPath: text.replace("file://", "") }) },
  window: { showErrorMessage: (it) => fail(it), withProgress: (_, task) => task() },
  commands: { registerCommand: (name, action) => ((commands[name] = action), { dispose() {} }) },
  workspace: {
    getConfiguration: () => ({ get: () => process.env.CISE_SCRIPT }),
    workspaceFolders: undefined,
    textDocuments: documents,
    onDidOpenTextDocument: events.open.event,
    onDidChangeTextDocument: events.change.event,
    onDidCloseTextDocument: events.close.event,
  },
  languages: {
    createDiagnosticCollection: () => ({ set: (uri, rows) => shown.set(uri.toString(), rows), clear: () => shown.clear(), dispose() {} }),
    registerHoverProvider: register("hover"),
    registerDefinitionProvider: register("definition"),
    registerReferenceProvider: register("references"),
    registerDocumentHighlightProvider: register("highlights"),
    registerDocumentSymbolProvider: register("symbols"),
    registerFoldingRangeProvider: register("folds"),
    registerDocumentFormattingEditProvider: register("format"),
    registerRenameProvider: register("rename"),
    registerCompletionItemProvider: register("completion"),
    registerSignatureHelpProvider: register("signature"),
    registerCodeLensProvider: register("lens"),
    registerCodeActionsProvider: register("actions"),
  },
};

const resolve = Module._load;
Module._load = (name, ...rest) => (name === "vscode" ? vscode : resolve(name, ...rest));
const extension = require(path.join(process.env.CISE_EDITORS, "vscode", "extension.js"));

const found = {};
function end(status) {
  fs.writeFileSync("found.json", JSON.stringify(found));
  process.exit(status);
}
function fail(why) {
  found.failed = String(why);
  end(1);
}
async function until(what, holds) {
  for (let left = 3000; !holds(); left--) {
    if (!left) fail(what);
    await new Promise((go) => setTimeout(go, 20));
  }
}
function edited(text, edits) {
  const rows = text.split("\n");
  const index = (it) => rows.slice(0, it.line).reduce((sum, row) => sum + row.length + 1, 0) + it.character;
  const sorted = [...edits].sort((a, b) => index(b.range.start) - index(a.range.start));
  return sorted.reduce((now, it) => now.slice(0, Math.min(now.length, index(it.range.start))) + it.newText + now.slice(index(it.range.end)), text);
}

async function main() {
  const uri = vscode.Uri.parse("file:///somewhere/a.cise");
  const token = { onCancellationRequested: () => ({ dispose() {} }) };
  const document = { uri, languageId: "cise", version: 1, text: fs.readFileSync("a.cise", "utf8") };
  document.getText = () => document.text;
  documents.push(document);
  const change = (text) => {
    const last = document.text.split("\n").length;
    document.version++;
    document.text = text;
    events.change.fire({ document, contentChanges: [{ range: new Range(new Position(0, 0), new Position(last, 0)), text }] });
  };
  await extension.activate({ subscriptions: [] });
  const diagnostics = () => shown.get(uri.toString()) || [];
  await until("diagnostics", () => diagnostics().length === 5);
  found.diagnostics = diagnostics().map((it) => [it.range.start.line + 1, it.severity, it.message, it.relatedInformation.length]);
  const row = document.text.split("\n")[25];
  const place = new Position(25, row.indexOf("bid"));
  found.definition = (await providers.definition.provideDefinition(document, place, token)).range.start.line + 1;
  found.hover = (await providers.hover.provideHover(document, place, token)).contents.value;
  found.symbols = (await providers.symbols.provideDocumentSymbols(document, token)).map((it) => it.name);
  found.folds = (await providers.folds.provideFoldingRanges(document, {}, token)).length;
  found.lenses = (await providers.lens.provideCodeLenses(document, token)).map((it) => it.command.title);
  found.references = (await providers.references.provideReferences(document, place, { includeDeclaration: true }, token)).length;
  found.highlights = (await providers.highlights.provideDocumentHighlights(document, place, token)).length;
  found.completions = (await providers.completion.provideCompletionItems(document, place, token)).map((it) => it.label);
  const inside = new Position(25, row.indexOf("bid") + 6);
  found.signature = (await providers.signature.provideSignatureHelp(document, inside, token)).signatures[0].label;
  found.formatted = (await providers.format.provideDocumentFormattingEdits(document, { tabSize: 2 }, token)).length;
  found.placeholder = (await providers.rename.prepareRename(document, place, token)).placeholder;
  const renames = await providers.rename.provideRenameEdits(document, place, "highest_bid", token);
  change(edited(document.text, renames.rows.get(uri.toString())));
  found.renamed = document.text;
  const refused = providers.rename.provideRenameEdits(document, place, "insert", token);
  found.refused = await refused.then(() => "", (it) => it.message);
  await until("verdicts of the new text", () => diagnostics().some((it) => it.message.includes("offer")));
  await providers.lens.provideCodeLenses(document, token);
  const line = new Range(new Position(18, 0), new Position(18, 4));
  const [action] = await providers.actions.provideCodeActions(document, line, { diagnostics: diagnostics() }, token);
  const whole = await providers.actions.resolveCodeAction(action, token);
  found.action = [action.title, action.diagnostics.length];
  change(edited(document.text, whole.edit.rows.get(uri.toString())));
  found.mended = document.text;
  await until("no diagnostics", () => !diagnostics().length);
  await commands["cise.restart"]();
  change(document.text.replace("sort Lot\n", "sort Lots\n"));
  await until("a slip", () => diagnostics().length === 1);
  found.slip = diagnostics()[0].message.split("\n")[0];
  events.close.fire(document);
  await extension.deactivate();
  end(0);
}
main().catch((error) => fail(error.stack));
