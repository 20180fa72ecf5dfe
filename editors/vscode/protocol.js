// What the server says, as the editor has it. Places are the same in both: lines from 0, and units of UTF-16.
"use strict";
const vscode = require("vscode");

const position = (it) => new vscode.Position(it.line, it.character);
const range = (it) => new vscode.Range(position(it.start), position(it.end));
const location = (it) => new vscode.Location(vscode.Uri.parse(it.uri), range(it.range));
const plain = (it) => ({ line: it.line, character: it.character });
const plainRange = (it) => ({ start: plain(it.start), end: plain(it.end) });

// Where something is asked: the document and the place.
function at(document, where) {
  return { textDocument: { uri: document.uri.toString() }, position: plain(where) };
}

function diagnostic(it) {
  const found = new vscode.Diagnostic(range(it.range), it.message, it.severity - 1);
  found.source = it.source;
  found.code = it.code;
  found.relatedInformation = (it.relatedInformation || []).map((row) => new vscode.DiagnosticRelatedInformation(location(row.location), row.message));
  return found;
}

function plainDiagnostic(it) {
  return { range: plainRange(it.range), message: it.message, severity: it.severity + 1, source: it.source, code: it.code };
}

function hover(it) {
  const text = new vscode.MarkdownString(it.contents.value);
  return new vscode.Hover(text, it.range && range(it.range));
}

function symbol(it) {
  const found = new vscode.DocumentSymbol(it.name, it.detail || "", it.kind - 1, range(it.range), range(it.selectionRange));
  found.children = (it.children || []).map(symbol);
  return found;
}

function completion(it) {
  const found = new vscode.CompletionItem(it.label, it.kind - 1);
  found.detail = it.detail;
  found.sortText = it.sortText;
  if (it.insertText) found.insertText = it.insertTextFormat === 2 ? new vscode.SnippetString(it.insertText) : it.insertText;
  return found;
}

function signatures(it) {
  const found = new vscode.SignatureHelp();
  found.signatures = it.signatures.map((row) => {
    const made = new vscode.SignatureInformation(row.label, row.documentation);
    made.parameters = row.parameters.map((part) => new vscode.ParameterInformation(part.label));
    return made;
  });
  found.activeSignature = it.activeSignature;
  found.activeParameter = it.activeParameter;
  return found;
}

function edits(rows) {
  return rows.map((it) => new vscode.TextEdit(range(it.range), it.newText));
}

function workspaceEdit(it) {
  const found = new vscode.WorkspaceEdit();
  for (const [uri, rows] of Object.entries(it.changes)) found.set(vscode.Uri.parse(uri), edits(rows));
  return found;
}

function lens(it) {
  return new vscode.CodeLens(range(it.range), { title: it.command.title, command: "" });
}

function fold(it) {
  return new vscode.FoldingRange(it.startLine, it.endLine, it.kind === "comment" ? vscode.FoldingRangeKind.Comment : undefined);
}

// An action with what the server said of it, which it wants back where the edit isn't there yet.
function action(it, diagnostics) {
  const found = new vscode.CodeAction(it.title, vscode.CodeActionKind.QuickFix);
  const is = (one, other) => one.message === other.message && one.range.start.line === other.range.start.line;
  found.diagnostics = diagnostics.filter((held) => (it.diagnostics || []).some((row) => is(row, held)));
  found.isPreferred = it.isPreferred;
  if (it.edit) found.edit = workspaceEdit(it.edit);
  else found.data = it;
  return found;
}

module.exports = {
  ...{ position, range, location, plain, plainRange, at, diagnostic, plainDiagnostic, hover, symbol, completion },
  ...{ signatures, edits, workspaceEdit, lens, fold, action },
};
