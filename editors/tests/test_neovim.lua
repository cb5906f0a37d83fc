-- Neovim itself opens examples, types, undoes, breaks and mends, renames and lays out; what it is told is compared.
--     DAIG_PROGRAM=PROGRAM nvim --headless --clean -c "luafile editors/tests/test_neovim.lua"
local here = vim.fn.fnamemodify(debug.getinfo(1, "S").source:sub(2), ":p:h")
local examples = here .. "/../../crates/examples/data/"
local severity = vim.diagnostic.severity
local checks = 0

local function fail(text)
  io.stderr:write("test_neovim: " .. text .. "\n")
  vim.cmd("cquit 1")
end

local function check(holds, text)
  checks = checks + 1
  if not holds then fail(text .. "\n" .. vim.inspect(vim.diagnostic.get(0))) end
end

-- The present diagnostics as words: line, severity, code or message.
local function told()
  local words = {}
  for _, it in ipairs(vim.diagnostic.get(0)) do
    local code = it.user_data and it.user_data.lsp and it.user_data.lsp.code or it.code
    table.insert(words, string.format("%d %s %s", it.lnum + 1, severity[it.severity], code or it.message:match("%((%w+)%)$") or it.message))
  end
  table.sort(words)
  return table.concat(words, ", ")
end

local function expect(wanted, what)
  vim.wait(20000, function() return told() == wanted end, 20)
  check(told() == wanted, what .. ": " .. wanted .. " is wanted, not " .. told())
end

local function keys(text)
  vim.api.nvim_feedkeys(vim.api.nvim_replace_termcodes(text, true, false, true), "xt", false)
end

local function open(name)
  local copy = vim.fn.tempname() .. "-" .. name
  vim.fn.writefile(vim.fn.readfile(examples .. name), copy)
  vim.cmd("edit " .. vim.fn.fnameescape(copy))
  check(vim.bo.filetype == "imp", "the file type of " .. name .. " is " .. vim.bo.filetype)
end

local function ask(method, line, column, more)
  local document, position = vim.lsp.util.make_text_document_params(), { line = line - 1, character = column }
  local params = { textDocument = document, position = position }
  local answers = vim.lsp.buf_request_sync(0, method, vim.tbl_extend("force", params, more or {}), 20000)
  for _, it in pairs(answers or {}) do
    check(not it.error, method .. ": " .. vim.inspect(it.error))
    return it.result
  end
  fail(method .. " has no answer")
end

local function hover(line, column) return ask("textDocument/hover", line, column).contents.value end

local function hints()
  local range = { start = { line = 0, character = 0 }, ["end"] = { line = vim.fn.line("$"), character = 0 } }
  local words = {}
  for _, it in ipairs(ask("textDocument/inlayHint", 1, 0, { range = range })) do
    table.insert(words, (it.position.line + 1) .. " " .. it.label)
  end
  return table.concat(words, ", ")
end

local function has(text, wanted) check(text:find(wanted, 1, true), wanted .. " is not in " .. text) end

local function arrays()
  open("arrays.imp")
  expect("12 WARN bounds", "the read past the end may fail, the write in the loop does not")
  has(hover(8, 3), "each time at the head")
  has(hover(12, 3), "i = len a")
  local shown = hints()
  check(shown == "8 0 ≤ i ≤ 1000000, 0 ≤ n ≤ 1000000, i ≤ n, i ≤ len a, len a = n", "the hints are " .. shown)
  check(vim.fn.synIDattr(vim.fn.synID(1, 1, 1), "name") == "impDeclaration", "the syntax is not highlighted")
  keys("12GOif (i < len a) {<Esc>")
  expect("13 WARN bounds, 14 ERROR Unexpected", "the guard's block has no end yet")
end

local function mend()
  keys("13Go}<Esc>")
  expect("13 HINT bounds", "after the guard the read is never reached")
  vim.cmd("silent undo")
  expect("13 HINT bounds, 14 ERROR Unexpected", "the undone end of the block is missing")
  vim.cmd("silent undo")
  expect("12 WARN bounds", "the guard is undone")
  keys("12GA i = 1 +;<Esc>")
  expect("12 ERROR Unexpected, 12 WARN bounds", "half an expression")
  keys("$xa 2;<Esc>")
  expect("12 WARN bounds", "the expression is whole")
  keys("4Gdd")
  expect("11 WARN bounds, 5 ERROR UnknownName, 6 ERROR UnknownName", "a declaration is gone")
  vim.cmd("silent undo")
  expect("12 WARN bounds", "the declaration is back")
end

local function calls()
  open("calls.imp")
  keys("13G$hhr7")
  expect("14 WARN assert", "twice of twice of seven is not twenty")
  vim.cmd("silent undo")
  expect("", "twice of twice of five is twenty")
  local found = ask("textDocument/definition", 6, 11)
  check(found.range.start.line == 1, "the called procedure is at line " .. found.range.start.line + 1)
  check(#ask("textDocument/documentSymbol", 1, 0) == 3, "there are three procedures")
  has(hover(3, 3), "before")
  local uri, position = vim.uri_from_bufnr(0), { line = 11, character = 8 }
  ask("workspace/executeCommand", 1, 0, { command = "daig.chooseCall", arguments = { uri, position } })
  has(hover(3, 3), "called from line 12")
  has(hover(3, 3), "x = 3")
end

local function names()
  open("calls.imp")
  expect("", "twice of twice of five is twenty")
  check(#ask("textDocument/references", 2, 5, { context = { includeDeclaration = true } }) > 1, "there are uses")
  local edit = ask("textDocument/rename", 2, 5, { newName = "double" })
  local count = #edit.changes[vim.uri_from_bufnr(0)]
  vim.lsp.util.apply_workspace_edit(edit, "utf-16")
  check(count > 1 and vim.fn.search("twice(", "nw") == 0, "each `twice` is `double`")
  expect("", "renamed it is as good")
  vim.cmd("silent undo")
end

local function layout()
  open("calls.imp")
  local before = table.concat(vim.fn.getline(1, "$"), "\n")
  vim.cmd([[silent %s/^ \+//e | silent %s/ = /=/e]])
  check(table.concat(vim.fn.getline(1, "$"), "\n") ~= before, "the layout is spoilt")
  local edits = ask("textDocument/formatting", 1, 0, { options = { tabSize = 2, insertSpaces = true } })
  vim.lsp.util.apply_text_edits(edits, 0, "utf-16")
  check(table.concat(vim.fn.getline(1, "$"), "\n") == before, "the layout is mended")
  keys("ggdGiproc main() {<CR>skip;<CR>if (1 < 2) {<CR>skip;<CR>}<CR>}<Esc>")
  local typed = table.concat(vim.fn.getline(1, "$"), "\n")
  check(typed == "proc main() {\n  skip;\n  if (1 < 2) {\n    skip;\n  }\n}", "lines are indented: " .. typed)
  check(vim.bo.commentstring == "// %s", "the comment string is " .. vim.bo.commentstring)
end

-- The lenses that stand beside the lines, in words.
local function lenses()
  local words = {}
  for _, it in ipairs(vim.lsp.codelens.get(0)) do
    table.insert(words, (it.range.start.line + 1) .. " " .. it.command.title)
  end
  return table.concat(words, ", ")
end

local function expect_lenses(wanted, what)
  vim.wait(20000, function() return lenses() == wanted end, 20)
  check(lenses() == wanted, what .. ": " .. wanted .. " is wanted, not " .. lenses())
end

local function after_edits()
  open("calls.imp")
  expect_lenses("2 3 calls, 5 1 call, 9 1 check, safe", "lenses come by themselves")
  keys("13G$hhr7")
  expect_lenses("2 3 calls, 5 1 call, 9 1 check, 1 not safe", "they follow an edit")
  keys("12GOa = call four(1);<Esc>")
  expect_lenses("2 3 calls, 5 2 calls, 9 1 check, 1 not safe", "and what it calls")
end

-- A buffer under another name is analysed as that file; the old one is closed.
local function saved_as()
  open("arrays.imp")
  expect("12 WARN bounds", "the read past the end may fail")
  local old = vim.uri_from_bufnr(0)
  vim.cmd("silent saveas " .. vim.fn.fnameescape(vim.fn.tempname() .. "-other.imp"))
  keys("12GOif (i < len a) {<Esc>")
  expect("13 WARN bounds, 14 ERROR Unexpected", "the file of the new name is followed")
  keys("13Go}<Esc>")
  expect("13 HINT bounds", "and its program")
  local answers = vim.lsp.buf_request_sync(0, "textDocument/documentSymbol", { textDocument = { uri = old } }, 20000)
  for _, it in pairs(answers) do check(it.error, "the old name is closed: " .. vim.inspect(it)) end
end

local function folds()
  open("calls.imp")
  check(vim.fn.foldclosed(2) == -1, "all is open at first")
  keys("3Gzc")
  check(vim.fn.foldclosed(3) == 2, "a procedure is folded: " .. vim.fn.foldclosed(3))
end

local function has_mapping(keys_, mode, what)
  check(vim.fn.mapcheck(keys_, mode) ~= "" or vim.fn.maparg(keys_, mode, false, true).buffer == 1, what)
end

local function mappings()
  has_mapping("<C-k>", "i", "parameters are shown in insert mode")
  has_mapping("\\ci", "n", "callers are listed")
  has_mapping("\\e", "n", "a message is shown whole")
  vim.cmd("normal! gg")
  local row = vim.fn.search("call twice(", "cW")
  check(row > 0, "there is a call")
  local help = ask("textDocument/signatureHelp", row, vim.fn.col(".") + 10)
  has(help.signatures[1].label, "twice(")
end

-- A language server that ends of itself leaves an error in the text, until it is started anew.
local function killed()
  open("arrays.imp")
  expect("12 WARN bounds", "it is served")
  for _, child in ipairs(vim.api.nvim_get_proc_children(vim.fn.getpid())) do vim.loop.kill(child, 9) end
  vim.wait(20000, function() return told():find("the language server ended", 1, true) end, 20)
  has(told(), "1 ERROR the language server ended")
  vim.cmd("silent edit")
  expect("12 WARN bounds", "it is started anew")
end

-- A client whose language server ended is not kept for later files.
local function restarted()
  for _, client in pairs(vim.lsp.get_active_clients()) do
    check(client.config.root_dir ~= here .. "/..", "the root is not the editor's folder")
    vim.lsp.stop_client(client.id, true)
  end
  vim.wait(10000, function() return #vim.lsp.get_active_clients() == 0 end, 20)
  open("arrays.imp")
  expect("12 WARN bounds", "a new client serves the next file")
end

local function run()
  vim.g.daig = { daig = os.getenv("DAIG_PROGRAM"), domain = "octagon", faults = "checks", compareEvery = 1, runs = 0 }
  vim.opt.runtimepath:prepend(here .. "/../nvim")
  vim.cmd("filetype off | filetype plugin indent on | syntax on")
  vim.o.report = 9999
  arrays()
  mend()
  calls()
  names()
  layout()
  after_edits()
  saved_as()
  folds()
  mappings()
  killed()
  restarted()
  local version = vim.version()
  local name = string.format("%d.%d.%d", version.major, version.minor, version.patch)
  io.stdout:write("test_neovim: " .. checks .. " checks in Neovim " .. name .. "\n")
  vim.cmd("qall!")
end

local ended, why = pcall(run)
if not ended then fail(tostring(why)) end
