" Settings of a buffer with an `.imp` program, and the language server where Neovim is there.
if exists("b:did_ftplugin")
  finish
endif
let b:did_ftplugin = 1

setlocal commentstring=//\ %s comments=:// formatoptions-=t formatoptions+=croql
setlocal expandtab shiftwidth=2 softtabstop=2
setlocal suffixesadd=.imp
setlocal foldmethod=syntax foldlevel=99
let b:undo_ftplugin = "setlocal commentstring< comments< formatoptions< expandtab< shiftwidth< softtabstop< suffixesadd< foldmethod< foldlevel<"

if has("nvim-0.7") && !exists("g:daig_no_server")
  lua require("daig").attach(vim.api.nvim_get_current_buf())
endif
