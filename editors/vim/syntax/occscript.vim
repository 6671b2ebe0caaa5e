" Vim syntax file: scripts and orders (docs/FORMATS.md); their parts are of the language
if exists('b:current_syntax')
  finish
endif
runtime! syntax/occ.vim
unlet! b:current_syntax
syntax match occFormat "\%1l^occam-\%(script\|orders\) \d\+"
syntax match occLine "^\%(FROM\|TO\)\>"
syntax match occLine "^\%(STEP\|ORDER\)\>" nextgroup=occLaw skipwhite
syntax match occLaw contained "\l[[:lower:]-]*" nextgroup=occDirection skipwhite
syntax match occDirection contained "\<\%(FORWARD\|BACKWARD\)\>" nextgroup=occPath skipwhite
syntax match occPath contained "/\%(\d\+\%(/\d\+\)*\)\?"

highlight default link occFormat PreProc
highlight default link occLine Label
highlight default link occLaw Function
highlight default link occDirection Keyword
highlight default link occPath Number
let b:current_syntax = 'occscript'
