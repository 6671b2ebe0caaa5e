" Vim syntax file: programs of WHILE-free occam (docs/LANGUAGE.md)
if exists('b:current_syntax')
  finish
endif
syntax case match
syntax iskeyword @,48-57,.

syntax keyword occHeader PROC nextgroup=occProgram skipwhite
syntax match occProgram contained "\a[[:alnum:].]*"
syntax keyword occConstruct SEQ PAR ALT IF
syntax keyword occRepeat FOR
syntax keyword occPrimitive SKIP STOP
syntax keyword occType BOOL WORD1 WORD2 WORD3 WORD4 WORD5 WORD6 WORD7 WORD8 CHAN OF
syntax keyword occBoolean TRUE FALSE
syntax keyword occWord AND OR NOT PLUS MINUS
syntax match occNumber "\<\d\+\>"
syntax match occSign ":=\|<=\|>=\|<>\|><\|/\\\|\\/\|[~&=<>]"
syntax match occCommunication "[?!]"
" what a line is refused for: a tab, an odd number of spaces in front, a numeral above 255
syntax match occFault "\t"
syntax match occFault "^ \%(  \)*\ze\%(--\)\@!\S"
syntax match occFault "\<\%(25[6-9]\|2[6-9]\d\|[3-9]\d\d\|0*[1-9]\d\{3,}\)\>"
syntax match occComment "--.*$" contains=occTodo
syntax keyword occTodo contained TODO FIXME

highlight default link occHeader Structure
highlight default link occProgram Identifier
highlight default link occConstruct Statement
highlight default link occRepeat Repeat
highlight default link occPrimitive Keyword
highlight default link occType Type
highlight default link occBoolean Boolean
highlight default link occWord Operator
highlight default link occNumber Number
highlight default link occSign Operator
highlight default link occCommunication Special
highlight default link occFault Error
highlight default link occComment Comment
highlight default link occTodo Todo
let b:current_syntax = 'occ'
