autocmd BufRead,BufNewFile *.imp set filetype=imp
