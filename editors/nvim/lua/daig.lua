-- Starts the language server for `.imp` files, one for each folder with a repository, else for each file's folder.
--   require("daig").setup({ domain = "octagon" })   -- the settings of editors/README.md; all may be left out
local M = {}

local here = vim.fn.fnamemodify(debug.getinfo(1, "S").source:sub(2), ":p:h")
local server = vim.fn.fnamemodify(here, ":h:h") .. "/daig_lsp.py"
local clients = {} -- by their roots, for Neovim 0.7
local ended_space = vim.api.nvim_create_namespace("daig-ended")

M.settings = nil

-- The folder that holds a file's repository, else the file's own folder.
local function root_of(buffer)
  local file = vim.api.nvim_buf_get_name(buffer)
  local folder = vim.fn.fnamemodify(file ~= "" and file or vim.fn.getcwd() .. "/x", ":p:h")
  local found = vim.fn.finddir(".git", vim.fn.escape(folder, " ;,") .. ";")
  return found ~= "" and vim.fn.fnamemodify(found, ":p:h:h") or folder
end

-- The clients of a buffer that are this language server.
local function clients_of(buffer)
  local all = vim.lsp.get_clients and vim.lsp.get_clients({ bufnr = buffer }) or vim.lsp.buf_get_clients(buffer)
  return vim.tbl_filter(function(it) return it.name == "daig" end, vim.tbl_values(all))
end

-- A language server that ends of itself leaves no text looking safe.
local function ended(root, code, signal)
  local words = "the language server ended (status %d, signal %d): nothing is known of this text; :edit starts it anew"
  local error = { lnum = 0, col = 0, severity = vim.diagnostic.severity.ERROR, source = "daig" }
  error.message = words:format(code, signal)
  for _, buffer in ipairs(vim.api.nvim_list_bufs()) do
    local is_ours = vim.api.nvim_buf_is_loaded(buffer) and vim.bo[buffer].filetype == "imp" and root_of(buffer) == root
    if is_ours and #clients_of(buffer) == 0 then vim.diagnostic.set(ended_space, buffer, { error }) end
  end
end

local function config_of(root)
  return {
    name = "daig",
    cmd = { "python3", server },
    root_dir = root,
    init_options = M.settings or vim.g.daig or vim.empty_dict(),
    on_exit = function(code, signal)
      clients[root] = nil -- a client that ended serves no later file
      local is_wanted = signal == 15 or code == 0 and signal == 0 or vim.v.exiting ~= vim.NIL
      if not is_wanted then vim.schedule(function() ended(root, code, signal) end) end
    end,
  }
end

-- Neovim 0.7 has no vim.lsp.start: one client for each root is kept while it runs.
local function start(buffer)
  if vim.fn.executable("python3") == 0 then
    vim.notify_once("daig: python3 (3.10 or later) is not on the PATH: the language server is not started", vim.log.levels.ERROR)
    return
  end
  vim.diagnostic.reset(ended_space, buffer)
  local root = root_of(buffer)
  if vim.lsp.start then
    vim.lsp.start(config_of(root), { bufnr = buffer })
    return
  end
  local client = clients[root]
  if not client or vim.lsp.client_is_stopped(client) then
    client = vim.lsp.start_client(config_of(root))
    clients[root] = client
  end
  if client then vim.lsp.buf_attach_client(buffer, client) end
end

-- Asks for the lenses of a buffer anew; an answer that an edit overtook shows nothing.
local function ask_lenses(buffer)
  local params = { textDocument = { uri = vim.uri_from_bufnr(buffer) } }
  for _, client in ipairs(clients_of(buffer)) do
    client.request("textDocument/codeLens", params, function(error, result, context, config)
      if not error and vim.api.nvim_buf_is_loaded(buffer) then
        vim.lsp.codelens.on_codelens(error, result, context, config)
      end
    end, buffer)
  end
end

-- Before 0.8 Neovim goes on telling of a text under its old name.
local function close_name(buffer)
  for _, client in ipairs(clients_of(buffer)) do
    client.notify("textDocument/didClose", { textDocument = { uri = vim.uri_from_bufnr(buffer) } })
  end
end

local function open_name(buffer)
  local text = table.concat(vim.api.nvim_buf_get_lines(buffer, 0, -1, true), "\n") .. "\n"
  local document = { uri = vim.uri_from_bufnr(buffer), languageId = "imp", version = vim.b[buffer].changedtick, text = text }
  for _, client in ipairs(clients_of(buffer)) do
    client.notify("textDocument/didOpen", { textDocument = document })
  end
end

-- What follows the text: its lenses, which are new when its diagnostics are, and its name.
local function follow(buffer)
  local group = vim.api.nvim_create_augroup("daig-" .. buffer, { clear = true })
  local function on(event, action)
    local function called() action(buffer) end
    vim.api.nvim_create_autocmd(event, { group = group, buffer = buffer, callback = called })
  end
  if vim.lsp.codelens.on_codelens then on("DiagnosticChanged", ask_lenses) end
  if vim.fn.has("nvim-0.8") == 0 then
    on("BufFilePre", close_name)
    on("BufFilePost", open_name)
  end
end

local function map(buffer, keys, action, what, mode)
  vim.keymap.set(mode or "n", keys, action, { buffer = buffer, desc = "daig: " .. what })
end

function M.attach(buffer)
  follow(buffer)
  start(buffer)
  map(buffer, "K", vim.lsp.buf.hover, "states here")
  map(buffer, "gd", vim.lsp.buf.definition, "declaration")
  map(buffer, "gr", vim.lsp.buf.references, "uses")
  map(buffer, "<leader>rn", vim.lsp.buf.rename, "another name")
  map(buffer, "<leader>ca", vim.lsp.buf.code_action, "actions")
  map(buffer, "<leader>ci", vim.lsp.buf.incoming_calls, "who calls this")
  map(buffer, "<leader>co", vim.lsp.buf.outgoing_calls, "what this calls")
  map(buffer, "<leader>e", vim.diagnostic.open_float, "the whole message")
  map(buffer, "<C-k>", vim.lsp.buf.signature_help, "parameters", "i")
  map(buffer, "<leader>f", vim.lsp.buf.format or vim.lsp.buf.formatting, "layout")
  vim.bo[buffer].omnifunc = "v:lua.vim.lsp.omnifunc"
  if vim.lsp.inlay_hint then -- 0.10 and later
    pcall(vim.lsp.inlay_hint.enable, true, { bufnr = buffer })
  end
end

function M.setup(settings) M.settings = settings end

return M
