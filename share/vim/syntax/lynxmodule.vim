" Vim syntax of LYNX modules. docs/TOKENS.md has the tokens and the grammar.
if exists('b:current_syntax')
  finish
endif
syntax case match

syntax match lynxmoduleNumber '\d\+'
syntax match lynxmoduleOperator '[-+*/=<>:;.,()\[\]]'
syntax match lynxmoduleOpenText "'[^']*$"
syntax match lynxmoduleText "'[ -&(-~]*'"
syntax match lynxmoduleComment '--.*$' contains=lynxmoduleTodo
syntax keyword lynxmoduleTodo contained TODO FIXME
syntax match lynxmoduleError '[_#"&{}!?@$%^\\|~`]\|[^\x00-\x7e]'

syntax keyword lynxmoduleStructure module op param var entry of begin end
syntax keyword lynxmoduleType int bool text link row
syntax keyword lynxmoduleConditional if then else
syntax keyword lynxmoduleRepeat while do
syntax keyword lynxmoduleStatement write await stop new destroy bind to unbind from connect on accept reply
syntax keyword lynxmoduleException raise try when BUSYLINK DEADLINK NOLINK DIVIDE OVERFLOW RANGE FAILED REPLIED LINKSFULL
syntax keyword lynxmoduleWordOperator or and mod not
syntax keyword lynxmoduleBoolean true false
syntax match lynxmoduleName '\a\w*'

highlight default link lynxmoduleNumber Number
highlight default link lynxmoduleOperator Operator
highlight default link lynxmoduleOpenText Error
highlight default link lynxmoduleText String
highlight default link lynxmoduleComment Comment
highlight default link lynxmoduleTodo Todo
highlight default link lynxmoduleError Error
highlight default link lynxmoduleStructure Structure
highlight default link lynxmoduleType Type
highlight default link lynxmoduleConditional Conditional
highlight default link lynxmoduleRepeat Repeat
highlight default link lynxmoduleStatement Statement
highlight default link lynxmoduleException Exception
highlight default link lynxmoduleWordOperator Operator
highlight default link lynxmoduleBoolean Boolean

let b:current_syntax = 'lynxmodule'
