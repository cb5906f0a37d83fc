" Syntax highlighting for `.imp` programs.
if exists("b:current_syntax")
  finish
endif

syntax keyword impDeclaration proc var
syntax keyword impType int array list
syntax keyword impConditional if else
syntax keyword impRepeat while break
syntax keyword impStatement skip call assert
syntax keyword impExpression input new len
syntax keyword impConstant null
syntax match impMember /\.\s*\zs\(next\|item\)\>/
syntax match impProcedure /\<\(proc\|call\)\_s\+\zs[A-Za-z_][A-Za-z0-9_]*/
syntax match impNumber /\<[0-9]\+\>/
syntax match impOperator /->\|[=!<>]=\|&&\|||\|[=<>+\-*\/%!]/
syntax match impComment /\/\/.*$/ contains=@Spell
syntax region impBlock start="{" end="}" transparent fold

highlight default link impDeclaration Keyword
highlight default link impType Type
highlight default link impConditional Conditional
highlight default link impRepeat Repeat
highlight default link impStatement Statement
highlight default link impExpression Keyword
highlight default link impConstant Constant
highlight default link impMember Identifier
highlight default link impProcedure Function
highlight default link impNumber Number
highlight default link impOperator Operator
highlight default link impComment Comment

let b:current_syntax = "imp"
