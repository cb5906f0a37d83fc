// What the language server offers, given to Visual Studio Code: one provider for each question.
"use strict";

const { positionOf, rangeOf, locationOf, editsOf, workspaceEditOf } = require("./convert.js");

function register(vscode, context, client, { language }) {
  const { languages } = vscode;
  const selector = { language };
  const add = (...made) => context.subscriptions.push(...made);
  const range = (it) => rangeOf(vscode, it);

  const file = (document) => ({ textDocument: { uri: document.uri.toString() } });
  const at = (document, position) => ({ ...file(document), position: positionOf(position) });
  const within = (document, it) => ({
    ...file(document),
    range: { start: positionOf(it.start), end: positionOf(it.end) },
  });

  add(
    languages.registerHoverProvider(selector, {
      async provideHover(document, position, cancel) {
        const found = await client.ask("textDocument/hover", at(document, position), cancel);
        if (!found) return null;
        const text = new vscode.MarkdownString(found.contents.value);
        return new vscode.Hover(text, found.range ? range(found.range) : undefined);
      },
    }),
    languages.registerDefinitionProvider(selector, {
      async provideDefinition(document, position, cancel) {
        const found = await client.ask("textDocument/definition", at(document, position), cancel);
        return found ? locationOf(vscode, found) : null;
      },
    }),
    languages.registerReferenceProvider(selector, {
      async provideReferences(document, position, { includeDeclaration }, cancel) {
        const params = { ...at(document, position), context: { includeDeclaration } };
        const found = (await client.ask("textDocument/references", params, cancel)) || [];
        return found.map((it) => locationOf(vscode, it));
      },
    }),
    languages.registerDocumentHighlightProvider(selector, {
      async provideDocumentHighlights(document, position, cancel) {
        const found = (await client.ask("textDocument/documentHighlight", at(document, position), cancel)) || [];
        return found.map((it) => new vscode.DocumentHighlight(range(it.range), it.kind - 1));
      },
    }),
    languages.registerRenameProvider(selector, {
      async prepareRename(document, position, cancel) {
        const found = await client.ask("textDocument/prepareRename", at(document, position), cancel);
        return { range: range(found.range), placeholder: found.placeholder };
      },
      async provideRenameEdits(document, position, newName, cancel) {
        const params = { ...at(document, position), newName };
        return workspaceEditOf(vscode, await client.ask("textDocument/rename", params, cancel));
      },
    }),
    languages.registerDocumentSymbolProvider(selector, {
      async provideDocumentSymbols(document, cancel) {
        const made = (it) => {
          const symbol = new vscode.DocumentSymbol(
            it.name, it.detail || "", it.kind - 1, range(it.range), range(it.selectionRange),
          );
          symbol.children = (it.children || []).map(made);
          return symbol;
        };
        return ((await client.ask("textDocument/documentSymbol", file(document), cancel)) || []).map(made);
      },
    }),
    languages.registerFoldingRangeProvider(selector, {
      async provideFoldingRanges(document, _context, cancel) {
        const found = (await client.ask("textDocument/foldingRange", file(document), cancel)) || [];
        const kind = (it) => (it.kind === "comment" ? vscode.FoldingRangeKind.Comment : undefined);
        return found.map((it) => new vscode.FoldingRange(it.startLine, it.endLine, kind(it)));
      },
    }),
    languages.registerSelectionRangeProvider(selector, {
      async provideSelectionRanges(document, positions, cancel) {
        const made = (it) => new vscode.SelectionRange(range(it.range), it.parent ? made(it.parent) : undefined);
        const params = { ...file(document), positions: positions.map(positionOf) };
        return ((await client.ask("textDocument/selectionRange", params, cancel)) || []).map(made);
      },
    }),
    languages.registerCompletionItemProvider(selector, {
      async provideCompletionItems(document, position, cancel) {
        const found = await client.ask("textDocument/completion", at(document, position), cancel);
        return ((found && found.items) || []).map((it) => {
          const item = new vscode.CompletionItem(it.label, it.kind - 1);
          item.detail = it.detail;
          if (it.insertText) item.insertText = new vscode.SnippetString(it.insertText);
          return item;
        });
      },
    }, ".", ":"),
    languages.registerSignatureHelpProvider(selector, {
      async provideSignatureHelp(document, position, cancel) {
        const found = await client.ask("textDocument/signatureHelp", at(document, position), cancel);
        if (!found) return null;
        const help = new vscode.SignatureHelp();
        help.signatures = found.signatures.map((it) => {
          const signature = new vscode.SignatureInformation(it.label);
          signature.parameters = it.parameters.map((one) => new vscode.ParameterInformation(one.label));
          return signature;
        });
        help.activeSignature = found.activeSignature;
        help.activeParameter = found.signatures[0].activeParameter;
        return help;
      },
    }, "(", ","),
    languages.registerDocumentSemanticTokensProvider(selector, {
      async provideDocumentSemanticTokens(document, cancel) {
        const found = await client.ask("textDocument/semanticTokens/full", file(document), cancel);
        return found ? new vscode.SemanticTokens(new Uint32Array(found.data)) : null;
      },
    }, new vscode.SemanticTokensLegend(client.legend.tokenTypes, client.legend.tokenModifiers)),
    languages.registerDocumentFormattingEditProvider(selector, {
      async provideDocumentFormattingEdits(document, options, cancel) {
        const params = { ...file(document), options };
        return editsOf(vscode, await client.ask("textDocument/formatting", params, cancel));
      },
    }),
    languages.registerDocumentRangeFormattingEditProvider(selector, {
      async provideDocumentRangeFormattingEdits(document, part, options, cancel) {
        const params = { ...within(document, part), options };
        return editsOf(vscode, await client.ask("textDocument/rangeFormatting", params, cancel));
      },
    }),
    languages.registerOnTypeFormattingEditProvider(selector, {
      async provideOnTypeFormattingEdits(document, position, ch, options, cancel) {
        const params = { ...at(document, position), ch, options };
        return editsOf(vscode, await client.ask("textDocument/onTypeFormatting", params, cancel));
      },
    }, "}", ";", "\n"),
    languages.registerWorkspaceSymbolProvider({
      async provideWorkspaceSymbols(query, cancel) {
        const found = (await client.ask("workspace/symbol", { query }, cancel)) || [];
        return found.map((it) => new vscode.SymbolInformation(it.name, it.kind - 1, "", locationOf(vscode, it.location)));
      },
    }),
    languages.registerInlayHintsProvider(selector, {
      onDidChangeInlayHints: client.refreshed.hints.event,
      async provideInlayHints(document, part, cancel) {
        const found = (await client.ask("textDocument/inlayHint", within(document, part), cancel)) || [];
        return found.map((it) => {
          const hint = new vscode.InlayHint(new vscode.Position(it.position.line, it.position.character), it.label);
          hint.tooltip = it.tooltip;
          hint.paddingLeft = it.paddingLeft;
          return hint;
        });
      },
    }),
    languages.registerCodeLensProvider(selector, {
      onDidChangeCodeLenses: client.refreshed.lenses.event,
      async provideCodeLenses(document, cancel) {
        const found = (await client.ask("textDocument/codeLens", file(document), cancel)) || [];
        return found.map((it) => new vscode.CodeLens(range(it.range), it.command));
      },
    }),
    languages.registerCodeActionsProvider(selector, {
      async provideCodeActions(document, part, _context, cancel) {
        const params = { ...within(document, part), context: { diagnostics: [] } };
        const found = (await client.ask("textDocument/codeAction", params, cancel)) || [];
        return found.map((it) => {
          const kind = it.edit ? vscode.CodeActionKind.QuickFix : vscode.CodeActionKind.Empty;
          const action = new vscode.CodeAction(it.title, kind);
          if (it.edit) action.edit = workspaceEditOf(vscode, it.edit);
          else action.command = { title: it.title, command: it.command, arguments: it.arguments };
          return action;
        });
      },
    }),
    languages.registerCallHierarchyProvider(selector, callHierarchy(vscode, client, at)),
  );
  for (const command of ["daig.chooseCall", "daig.allCalls", "daig.showCauses", "daig.hideCauses"]) {
    add(
      vscode.commands.registerCommand(command, (...given) =>
        client.ask("workspace/executeCommand", { command, arguments: given })),
    );
  }
}

function callHierarchy(vscode, client, at) {
  const made = (it) =>
    new vscode.CallHierarchyItem(
      it.kind - 1, it.name, it.detail || "", vscode.Uri.parse(it.uri),
      rangeOf(vscode, it.range), rangeOf(vscode, it.selectionRange),
    );
  const ranges = (call) => call.fromRanges.map((it) => rangeOf(vscode, it));
  const back = (item) => ({ item: { name: item.name, uri: item.uri.toString() } });
  return {
    async prepareCallHierarchy(document, position, cancel) {
      const found = await client.ask("textDocument/prepareCallHierarchy", at(document, position), cancel);
      return found ? found.map(made) : null;
    },
    async provideCallHierarchyIncomingCalls(item, cancel) {
      const found = (await client.ask("callHierarchy/incomingCalls", back(item), cancel)) || [];
      return found.map((it) => new vscode.CallHierarchyIncomingCall(made(it.from), ranges(it)));
    },
    async provideCallHierarchyOutgoingCalls(item, cancel) {
      const found = (await client.ask("callHierarchy/outgoingCalls", back(item), cancel)) || [];
      return found.map((it) => new vscode.CallHierarchyOutgoingCall(made(it.to), ranges(it)));
    },
  };
}

module.exports = { register };
