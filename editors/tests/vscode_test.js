// The extension for Visual Studio Code against a small stub of its API, with the real language server.
"use strict";

const assert = require("assert");
const Module = require("module");
const path = require("path");

const editors = path.join(__dirname, "..");
const events = {};
const providers = {};
const shown = [];
const diagnostics = new Map();
let configuration = {};

// Plain objects in the place of the API's classes: each keeps what it is made with.
function record(...names) {
  return class {
    constructor(...given) {
      names.forEach((name, k) => { this[name] = given[k]; });
    }
  };
}

class Range {
  constructor(startLine, startCharacter, endLine, endCharacter) {
    this.start = { line: startLine, character: startCharacter };
    this.end = { line: endLine, character: endCharacter };
  }
}

class Emitter {
  constructor() {
    this.listeners = [];
    this.event = (it) => { this.listeners.push(it); return { dispose() {} }; };
  }
  fire() { this.listeners.forEach((it) => it()); }
}

class WorkspaceEdit {
  constructor() { this.edits = []; }
  set(uri, edits) { this.edits.push([uri.toString(), edits]); }
}

const uriOf = (text) => ({ toString: () => text });
const on = (name) => (listener) => { events[name] = listener; return { dispose() {} }; };
const languages = new Proxy({}, {
  get: (_, name) => (...given) => {
    if (name === "createDiagnosticCollection") {
      return {
        set: (uri, told) => diagnostics.set(uri.toString(), told),
        delete: (uri) => diagnostics.delete(uri.toString()),
        dispose() {},
      };
    }
    providers[name.replace(/^register|Provider$/g, "")] = given[1] || given[0];
    return { dispose() {} };
  },
});

const vscode = {
  languages,
  workspace: {
    textDocuments: [],
    getConfiguration: () => ({ get: (name) => configuration[name] }),
    onDidOpenTextDocument: on("open"),
    onDidChangeTextDocument: on("change"),
    onDidSaveTextDocument: on("save"),
    onDidCloseTextDocument: on("close"),
    onDidChangeConfiguration: on("configuration"),
  },
  window: {
    createOutputChannel: () => ({ append() {}, appendLine() {}, dispose() {} }),
    showErrorMessage: (it) => shown.push(it),
    showInformationMessage: (it) => shown.push(it),
    withProgress: (_options, work) => work({ report() {} }, { onCancellationRequested() {} }),
  },
  commands: { registerCommand: (name, action) => { events[name] = action; return { dispose() {} }; } },
  Uri: { parse: uriOf },
  EventEmitter: Emitter,
  Range,
  WorkspaceEdit,
  Position: record("line", "character"),
  Location: record("uri", "range"),
  Diagnostic: record("range", "message", "severity"),
  DiagnosticRelatedInformation: record("location", "message"),
  DiagnosticSeverity: { Error: 0 },
  TextEdit: record("range", "newText"),
  MarkdownString: record("value"),
  Hover: record("contents", "range"),
  DocumentHighlight: record("range", "kind"),
  DocumentSymbol: record("name", "detail", "kind", "range", "selectionRange"),
  SymbolInformation: record("name", "kind", "containerName", "location"),
  FoldingRange: record("start", "end", "kind"),
  FoldingRangeKind: { Comment: 1 },
  SelectionRange: record("range", "parent"),
  CompletionItem: record("label", "kind"),
  SnippetString: record("value"),
  SignatureHelp: record(),
  SignatureInformation: record("label"),
  ParameterInformation: record("label"),
  SemanticTokens: record("data"),
  SemanticTokensLegend: record("types", "modifiers"),
  InlayHint: record("position", "label"),
  CodeLens: record("range", "command"),
  CodeAction: record("title", "kind"),
  CodeActionKind: { QuickFix: "quickfix", Empty: "" },
  CallHierarchyItem: record("kind", "name", "detail", "uri", "range", "selectionRange"),
  CallHierarchyIncomingCall: record("from", "fromRanges"),
  CallHierarchyOutgoingCall: record("to", "fromRanges"),
  ProgressLocation: { Window: 10 },
};

const load = Module._load;
Module._load = (name, ...more) => (name === "vscode" ? vscode : load(name, ...more));
const extension = require(path.join(editors, "vscode", "extension.js"));

const text = `proc f(x: int) -> r: int {
  r = x;
}
proc main() {
  var i: int;
  i = input;
  while (i < 10) {
    i = i + 1;
  }
  i = call f(i);
  assert i == 11;
}
`;
const document = {
  uri: uriOf("file:///small.imp"), languageId: "imp", version: 1, words: text,
  getText() { return this.words; },
};
const other = { uri: uriOf("file:///small.txt"), languageId: "plaintext", version: 1, getText: () => "x" };
const position = (line, character) => ({ line, character });
const never = { onCancellationRequested() {} };

async function until(holds, what) {
  for (let k = 0; k < 3000; k += 1) {
    if (holds()) return;
    await new Promise((done) => setTimeout(done, 20));
  }
  throw new Error(`${what}: ${JSON.stringify([...diagnostics])} ${shown}`);
}

const told = () => diagnostics.get("file:///small.imp") || [];

async function questions() {
  const hover = await providers.Hover.provideHover(document, position(6, 4), never);
  assert(hover.contents.value.includes("each time at the head"), hover.contents.value);
  const found = await providers.Definition.provideDefinition(document, position(9, 12), never);
  assert.strictEqual(found.range.start.line, 0);
  const uses = await providers.Reference.provideReferences(document, position(5, 2), { includeDeclaration: true }, never);
  assert.strictEqual(uses.length, 8);
  assert.strictEqual((await providers.DocumentHighlight.provideDocumentHighlights(document, position(5, 2), never)).length, 8);
  const edit = await providers.Rename.provideRenameEdits(document, position(5, 2), "count", never);
  assert.strictEqual(edit.edits[0][1].length, 8);
  await assert.rejects(providers.Rename.provideRenameEdits(document, position(5, 2), "while", never));
  const symbols = await providers.DocumentSymbol.provideDocumentSymbols(document, never);
  assert.deepStrictEqual(symbols.map((it) => [it.name, it.children.length]), [["f", 2], ["main", 1]]);
  assert.strictEqual((await providers.FoldingRange.provideFoldingRanges(document, {}, never)).length, 3);
  assert((await providers.SelectionRange.provideSelectionRanges(document, [position(7, 5)], never))[0].parent);
  const items = await providers.CompletionItem.provideCompletionItems(document, position(9, 11), never);
  assert.deepStrictEqual(items.map((it) => it.label), ["f"]);
  const help = await providers.SignatureHelp.provideSignatureHelp(document, position(9, 13), never);
  assert.strictEqual(help.signatures[0].label, "f(x: int) -> r: int");
  assert((await providers.DocumentSemanticTokens.provideDocumentSemanticTokens(document, never)).data.length % 5 === 0);
  assert.deepStrictEqual(await providers.DocumentFormattingEdit.provideDocumentFormattingEdits(document, {}, never), []);
  const typing = providers.OnTypeFormattingEdit;
  assert.deepStrictEqual(await typing.provideOnTypeFormattingEdits(document, position(8, 3), "}", {}, never), []);
  const named = await providers.WorkspaceSymbol.provideWorkspaceSymbols("F", never);
  assert.deepStrictEqual(named.map((it) => [it.name, it.location.range.start.line]), [["f", 0]]);
  const whole = new Range(0, 0, 20, 0);
  const ranged = providers.DocumentRangeFormattingEdit;
  assert.deepStrictEqual(await ranged.provideDocumentRangeFormattingEdits(document, whole, {}, never), []);
  assert.strictEqual((await providers.InlayHints.provideInlayHints(document, whole, never)).length, 1);
  assert.strictEqual((await providers.CodeLens.provideCodeLenses(document, never)).length, 2);
  const actions = await providers.CodeActions.provideCodeActions(document, new Range(9, 8, 9, 8), {}, never);
  assert(actions.some((it) => it.command && it.command.command === "daig.chooseCall"), JSON.stringify(actions));
  const calls = providers.CallHierarchy;
  const [item] = await calls.prepareCallHierarchy(document, position(0, 5), never);
  assert.strictEqual((await calls.provideCallHierarchyIncomingCalls(item, never))[0].from.name, "main");
  assert.deepStrictEqual(await calls.provideCallHierarchyOutgoingCalls(item, never), []);
}

const changed = (...names) => events.configuration({ affectsConfiguration: (it) => it === "daig" || names.includes(it) });

// What is not there, or is no language server, is told of once, with what to do; other settings start it again.
async function failedStarts() {
  vscode.workspace.textDocuments.push(document);
  configuration = { daig: process.env.DAIG_PROGRAM, python: "/no/such/python3" };
  await extension.activate({ subscriptions: [] });
  await until(() => shown.length > 0, "no Python");
  assert(/does not start: \/no\/such\/python3 cannot be run: .*ENOENT.*Python 3.10 or later.*daig.python/.test(shown[0]), shown);
  assert.strictEqual(told()[0].severity, 0, "the text does not look safe");
  assert.deepStrictEqual(Object.keys(providers), []);
  const script = path.join(require("os").tmpdir(), `daig-${process.pid}.py`);
  require("fs").writeFileSync(script, "import sys\nsys.exit('daig-lsp: the wrong kit')\n");
  configuration = { daig: process.env.DAIG_PROGRAM, server: script };
  changed("daig.python", "daig.server");
  await until(() => shown.length > 1, "no language server");
  assert(/does not start: it ended with status 1: daig-lsp: the wrong kit\. /.test(shown[1]), shown[1]);
  require("fs").unlinkSync(script);
  configuration = { daig: "/no/such/daig" };
  changed("daig.server", "daig.daig");
  await until(() => told().some((it) => it.message.includes("cannot be asked")), "no program");
  assert(/there is no program \/no\/such\/daig; give the path of one by the setting `daig`/.test(shown[2]), shown[2]);
  configuration = { daig: process.env.DAIG_PROGRAM };
  changed("daig.daig");
  await until(() => told().some((it) => it.code === "assert"), "the program is there");
  assert.strictEqual(shown.length, 3, JSON.stringify(shown));
  assert((await providers.Hover.provideHover(document, position(6, 4), never)).contents.value.length > 0);
  await extension.deactivate();
  shown.length = 0;
  diagnostics.clear();
  vscode.workspace.textDocuments.length = 0;
}

async function run() {
  await failedStarts();
  configuration = { daig: process.env.DAIG_PROGRAM, domain: "octagon" };
  vscode.workspace.textDocuments.push(document, other);
  await extension.activate({ subscriptions: [] });
  assert.deepStrictEqual(shown, []);
  await until(() => told().some((it) => it.code === "assert"), "the assertion may fail");
  await until(() => told().some((it) => it.severity === 0 && it.relatedInformation.length > 0), "a run fails");
  await questions();
  document.version = 2;
  document.words = text.replace("i = input;", "i = inptu;");
  events.change({ document, contentChanges: [{ range: new Range(5, 6, 5, 11), text: "inptu" }] });
  await until(() => told().some((it) => it.message.includes("`inptu`")), "an unknown name");
  document.version = 3;
  document.words = text.replace("11", "i");
  events.change({ document, contentChanges: [{ range: new Range(5, 6, 5, 11), text: "input" }] });
  events.change({ document, contentChanges: [{ range: new Range(10, 14, 10, 15), text: "" }] });
  await until(() => told().length === 1 && told()[0].code === "assert", "the name is mended");
  await events["daig.restart"]();
  await until(() => told().length === 0, "the saved text is served by the new server");
  events.close(document);
  await until(() => !diagnostics.has("file:///small.imp") || told().length === 0, "the file is closed");
  await extension.deactivate();
  console.log("vscode_test: the extension over a stub of the API");
  setTimeout(() => process.exit(0), 200);
}

run().catch((error) => { console.error(error); process.exit(1); });
