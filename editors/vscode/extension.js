// Starts the language server of daig for `.imp` files. Plain JavaScript over Node's own modules and the `vscode` API:
// messages are read and written here, and each thing that the server offers is given to Visual Studio Code.
"use strict";

const { spawn } = require("child_process");
const fs = require("fs");
const path = require("path");
const vscode = require("vscode");
const { Wire } = require("./wire.js");
const { register } = require("./providers.js");
const { diagnosticsOf } = require("./convert.js");

const LANGUAGE = "imp";
const SETTINGS = ["daig", "faults", "domain", "widening", "delay", "budget", "memory", "patience", "runs"];
// A server that ends by itself is started anew so often, and then no more.
const MOST_STARTS = 5;
// The settings that say what is run.
const STARTED_BY = ["daig.python", "daig.server"];
const REMEDY =
  "It needs Python 3.10 or later, which the setting daig.python names; daig.server is the path of daig_lsp.py. " +
  "It is started again when a setting changes, and by the command daig.restart";
const LONGEST_SAID = 2000;

// The last line that a program said, with what stands between it and other words.
function lastLine(said) {
  const line = said.trim().split("\n").pop();
  return line ? `: ${line}` : "";
}

// The settings of the server, without those that are not set.
function settings() {
  const given = vscode.workspace.getConfiguration("daig");
  const told = {};
  for (const name of SETTINGS) {
    const value = given.get(name);
    if (value !== null && value !== undefined && value !== "") told[name] = value;
  }
  return told;
}

// The language server's script: as set, else in this extension's folder `server`, else beside it in the repository.
function serverScript() {
  const given = vscode.workspace.getConfiguration("daig").get("server");
  const places = [path.join(__dirname, "server", "daig_lsp.py"), path.join(__dirname, "..", "daig_lsp.py")];
  return given || places.find((it) => fs.existsSync(it)) || places[1];
}

class Client {
  constructor(context) {
    this.context = context;
    this.starts = 0;
    this.ready = false;
    this.hasServed = false; // since it was last started by the user, or for other settings
    this.lost = ""; // why no server runs, where none is started any more
    this.progress = new Map();
    this.log = vscode.window.createOutputChannel("daig");
    this.diagnostics = vscode.languages.createDiagnosticCollection("daig");
    this.refreshed = { hints: new vscode.EventEmitter(), lenses: new vscode.EventEmitter() };
    context.subscriptions.push(this.log, this.diagnostics);
  }

  // Starts the server, and opens all files of the language in it.
  async start() {
    this.starts += 1;
    this.lost = "";
    const python = vscode.workspace.getConfiguration("daig").get("python") || "python3";
    const child = spawn(python, [serverScript(), "--stdio"], { stdio: ["pipe", "pipe", "pipe"] });
    this.child = child;
    this.wire = new Wire(child.stdin, (message) => this.take(message));
    child.stdout.on("data", (data) => this.wire.read(data));
    let said = "";
    child.stderr.on("data", (data) => {
      said = (said + data).slice(-LONGEST_SAID);
      this.log.append(String(data));
    });
    child.stdin.on("error", () => {});
    child.on("error", (error) => this.ended(child, `${python} cannot be run: ${error.message}`));
    child.on("close", (code) => this.ended(child, `it ended with status ${code}${lastLine(said)}`));
    const capabilities = {
      textDocument: {
        codeAction: { codeActionLiteralSupport: { codeActionKind: { valueSet: ["quickfix"] } } },
        completion: { completionItem: { snippetSupport: true } },
        documentSymbol: { hierarchicalDocumentSymbolSupport: true },
        hover: { contentFormat: ["markdown"] },
        publishDiagnostics: { relatedInformation: true, tagSupport: { valueSet: [1] } },
      },
      workspace: {
        configuration: true,
        inlayHint: { refreshSupport: true },
        codeLens: { refreshSupport: true },
      },
      window: { workDoneProgress: true },
    };
    const answer = await this.wire.request("initialize", {
      processId: process.pid,
      workspaceFolders: (vscode.workspace.workspaceFolders || []).map((it) => ({ uri: it.uri.toString(), name: it.name })),
      capabilities,
      initializationOptions: settings(),
    });
    this.legend = answer.capabilities.semanticTokensProvider.legend;
    this.wire.notify("initialized", {});
    this.ready = this.hasServed = true;
    if (!this.isRegistered) register(vscode, this.context, this, { language: LANGUAGE });
    this.isRegistered = true;
    for (const document of vscode.workspace.textDocuments) this.open(document);
  }

  // The server has ended: what it said is no longer known.
  ended(child, why) {
    if (this.child !== child) return;
    this.ready = false;
    this.child = undefined;
    this.wire.close();
    for (const { done } of this.progress.values()) done();
    this.progress.clear();
    if (this.stopping) return;
    this.log.appendLine(`the language server is lost: ${why}`);
    if (!this.hasServed) {
      this.giveUp(`the language server does not start: ${why}. ${REMEDY}`);
    } else if (this.starts < MOST_STARTS) {
      this.tryToStart();
    } else {
      this.giveUp(`the language server is lost: ${why}`);
    }
  }

  // Starts the server; where it does not start the user is told when it ends, or here where it answers an error.
  async tryToStart() {
    try {
      await this.start();
    } catch (error) {
      this.log.appendLine(String(error));
      if (!this.child) return;
      this.child.kill();
      this.child = undefined;
      this.giveUp(`the language server does not start: ${error.message || error}. ${REMEDY}`);
    }
  }

  // No server runs any more: no file is left looking safe.
  giveUp(words) {
    this.lost = words;
    vscode.window.showErrorMessage(`daig: ${words}`);
    for (const document of vscode.workspace.textDocuments) this.tellLost(document);
  }

  tellLost(document) {
    if (!this.lost || document.languageId !== LANGUAGE) return;
    const told = new vscode.Diagnostic(new vscode.Range(0, 0, 0, 0), this.lost, vscode.DiagnosticSeverity.Error);
    this.diagnostics.set(document.uri, [told]);
  }

  async restart() {
    this.starts = 0;
    this.hasServed = false;
    const child = this.child;
    await this.stop();
    this.stopping = false;
    this.child = undefined;
    if (child) child.kill();
    await this.tryToStart();
  }

  // Ends the server as it should be ended.
  async stop() {
    this.stopping = true;
    if (!this.ready) return;
    this.ready = false;
    const wire = this.wire;
    await Promise.race([wire.request("shutdown", {}), new Promise((done) => setTimeout(done, 2000))]).catch(() => {});
    wire.notify("exit", {});
  }

  // What the server sends.
  take(message) {
    const { method, params } = message;
    if (method === "textDocument/publishDiagnostics") {
      const uri = vscode.Uri.parse(params.uri);
      this.diagnostics.set(uri, diagnosticsOf(vscode, params.diagnostics));
    } else if (method === "window/logMessage") {
      this.log.appendLine(params.message);
    } else if (method === "window/showMessage") {
      const show = params.type === 1 ? "showErrorMessage" : "showInformationMessage";
      vscode.window[show](params.message);
    } else if (method === "$/progress") {
      this.tellProgress(params);
    } else if (message.id !== undefined) {
      this.wire.answer(message.id, this.answerTo(method, params));
    }
  }

  // What the server asks.
  answerTo(method) {
    if (method === "workspace/configuration") return [settings()];
    if (method === "workspace/inlayHint/refresh") this.refreshed.hints.fire();
    if (method === "workspace/codeLens/refresh") this.refreshed.lenses.fire();
    return null;
  }

  // Long work is shown below, and can be given up there.
  tellProgress({ token, value }) {
    if (value.kind === "begin") {
      const options = { location: vscode.ProgressLocation.Window, title: value.title, cancellable: true };
      vscode.window.withProgress(options, (progress, cancel) => {
        cancel.onCancellationRequested(() => this.wire.notify("window/workDoneProgress/cancel", { token }));
        progress.report({ message: value.message });
        return new Promise((done) => this.progress.set(token, { progress, done }));
      });
    } else if (this.progress.has(token)) {
      const { progress, done } = this.progress.get(token);
      if (value.kind === "report") progress.report({ message: value.message });
      if (value.kind === "end") {
        this.progress.delete(token);
        done();
      }
    }
  }

  // What the user does with files.
  open(document) {
    this.tellLost(document);
    if (!this.ready || document.languageId !== LANGUAGE) return;
    const { version } = document;
    const uri = document.uri.toString();
    this.wire.notify("textDocument/didOpen", {
      textDocument: { uri, languageId: LANGUAGE, version, text: document.getText() },
    });
  }

  change(event) {
    const { document, contentChanges } = event;
    if (!this.ready || document.languageId !== LANGUAGE || contentChanges.length === 0) return;
    const changes = contentChanges.map(({ range, text }) => ({
      range: {
        start: { line: range.start.line, character: range.start.character },
        end: { line: range.end.line, character: range.end.character },
      },
      text,
    }));
    this.wire.notify("textDocument/didChange", {
      textDocument: { uri: document.uri.toString(), version: document.version },
      contentChanges: changes,
    });
  }

  save(document) {
    if (!this.ready || document.languageId !== LANGUAGE) return;
    const textDocument = { uri: document.uri.toString() };
    this.wire.notify("textDocument/didSave", { textDocument, text: document.getText() });
  }

  close(document) {
    if (!this.ready || document.languageId !== LANGUAGE) return;
    this.wire.notify("textDocument/didClose", { textDocument: { uri: document.uri.toString() } });
    this.diagnostics.delete(document.uri);
  }

  // The answer to a question, and nothing where there is none or the text has changed.
  async ask(method, params, cancel) {
    if (!this.ready) return null;
    try {
      return await this.wire.request(method, params, cancel);
    } catch (error) {
      if (method === "textDocument/rename" || method === "textDocument/prepareRename") throw error;
      return null;
    }
  }
}

let client;

async function activate(context) {
  client = new Client(context);
  const { workspace } = vscode;
  context.subscriptions.push(
    workspace.onDidOpenTextDocument((it) => client.open(it)),
    workspace.onDidChangeTextDocument((it) => client.change(it)),
    workspace.onDidSaveTextDocument((it) => client.save(it)),
    workspace.onDidCloseTextDocument((it) => client.close(it)),
    workspace.onDidChangeConfiguration((it) => {
      if (!it.affectsConfiguration("daig")) return;
      if (!client.ready || STARTED_BY.some((name) => it.affectsConfiguration(name))) {
        client.restart();
      } else {
        client.wire.notify("workspace/didChangeConfiguration", { settings: { daig: settings() } });
      }
    }),
    vscode.commands.registerCommand("daig.restart", () => client.restart()),
  );
  await client.tryToStart();
}

async function deactivate() {
  if (client) await client.stop();
}

module.exports = { activate, deactivate };
