" Indents by the blocks: one step more after a `{`, one less at a `}`.
if exists("b:did_indent")
  finish
endif
let b:did_indent = 1

setlocal nolisp autoindent indentexpr=ImpIndent(v:lnum) indentkeys=0},o,O,!^F
let b:undo_indent = "setlocal lisp< autoindent< indentexpr< indentkeys<"

if exists("*ImpIndent")
  finish
endif

" A line without its comment.
function! s:code(number)
  return substitute(getline(a:number), '//.*$', '', '')
endfunction

function! ImpIndent(number)
  let above = prevnonblank(a:number - 1)
  if above == 0
    return 0
  endif
  let indent = indent(above)
  if s:code(above) =~ '{\s*$'
    let indent += shiftwidth()
  endif
  if getline(a:number) =~ '^\s*}'
    let indent -= shiftwidth()
  endif
  return max([0, indent])
endfunction
