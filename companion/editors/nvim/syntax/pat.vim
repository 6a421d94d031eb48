" Colours for programs of pat.
if exists('b:current_syntax')
  finish
endif
syntax keyword patDeclaration interface def
syntax keyword patStatement let in spawn print new guard free fail receive from
syntax keyword patConditional if else
syntax keyword patBase Unit Bool Int String
syntax keyword patBoolean true false
syntax match patNumber /\<\d\+\>/
syntax match patMessage /\%(!\s*\|receive\s\+\)\@<=\h\w*\ze\s*(/
syntax match patType /\<\h\w*\ze[!?]\S/
syntax match patOperator /->\|==\|[!?+*.<=:-]/
syntax region patString start=/"/ skip=/\\["\\]/ end=/"\|$/
syntax match patComment /\/\/.*$/
highlight default link patDeclaration Keyword
highlight default link patStatement Statement
highlight default link patConditional Conditional
highlight default link patBase Type
highlight default link patType Type
highlight default link patBoolean Boolean
highlight default link patNumber Number
highlight default link patMessage Identifier
highlight default link patOperator Operator
highlight default link patString String
highlight default link patComment Comment
let b:current_syntax = 'pat'
