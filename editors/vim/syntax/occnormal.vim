" Vim syntax file: normal texts, behaviours and schedules (docs/FORMATS.md)
if exists('b:current_syntax')
  finish
endif
syntax case match
syntax iskeyword @,48-57,.
syntax match occFormat "\%1l^occam-\%(normal\|schedule\) \d\+"
syntax match occRow "^ROW\>"
syntax match occLine "^\%(PARAM\|END\|ACCEPT\|OFFER\|STATE\|TRACE\|REFUSES\|ENDS\|STEP\)\>"
syntax match occAnswer "^\%(DIFFER\|DEADLOCK\|ONLY FIRST\|ONLY SECOND\)$"
syntax keyword occType BOOL WORD1 WORD2 WORD3 WORD4 WORD5 WORD6 WORD7 WORD8 CHAN OF
syntax match occNumber "\<\d\+\>"
syntax match occState "\[[0-9 ]*\]" contains=occNumber
syntax match occEvent "\<\a[[:alnum:].]*\%(\[\d\+\]\)\?[?!]\%(\d\+\)\?" contains=occCommunication
syntax match occCommunication contained "[?!]"
syntax match occSet "[{}]"

highlight default link occFormat PreProc
highlight default link occRow Statement
highlight default link occLine Label
highlight default link occAnswer WarningMsg
highlight default link occType Type
highlight default link occNumber Number
highlight default link occState Constant
highlight default link occEvent Identifier
highlight default link occCommunication Special
highlight default link occSet Delimiter
let b:current_syntax = 'occnormal'
