// From the protocol's objects to those of Visual Studio Code, and back.
"use strict";

function positionOf(position) {
  return { line: position.line, character: position.character };
}

function rangeOf(vscode, { start, end }) {
  return new vscode.Range(start.line, start.character, end.line, end.character);
}

function locationOf(vscode, { uri, range }) {
  return new vscode.Location(vscode.Uri.parse(uri), rangeOf(vscode, range));
}

// Severities and tags count from 1 in the protocol, and severities from 0 here.
function diagnosticsOf(vscode, told) {
  return told.map((it) => {
    const made = new vscode.Diagnostic(rangeOf(vscode, it.range), it.message, it.severity - 1);
    made.source = it.source;
    made.code = it.code;
    made.tags = it.tags;
    made.relatedInformation = (it.relatedInformation || []).map(
      (other) => new vscode.DiagnosticRelatedInformation(locationOf(vscode, other.location), other.message),
    );
    return made;
  });
}

function editsOf(vscode, edits) {
  return (edits || []).map((it) => new vscode.TextEdit(rangeOf(vscode, it.range), it.newText));
}

function workspaceEditOf(vscode, edit) {
  const made = new vscode.WorkspaceEdit();
  for (const [uri, edits] of Object.entries(edit.changes)) made.set(vscode.Uri.parse(uri), editsOf(vscode, edits));
  return made;
}

module.exports = { positionOf, rangeOf, locationOf, diagnosticsOf, editsOf, workspaceEditOf };
