" Bodies and mains of som.
if exists("b:current_syntax")
  finish
endif
syntax keyword sombodStatement var if else while return print free main
syntax keyword sombodOperator and or not as isa new class proxy length text host
syntax keyword sombodCall lookup dispatch parent parents
syntax keyword sombodObject self somThis SOMClassMgrObject
syntax keyword sombodConstant nil TRUE FALSE
syntax keyword sombodType void long boolean string
syntax match sombodMethod "\<\h\w*\s*::\s*\h\w*\>"
syntax match sombodNumber "\<\d\+\>"
syntax match sombodEscape contained +\\["\\nt]+
syntax region sombodText start=+"+ skip=+\\.+ end=+"+ oneline contains=sombodEscape
syntax match sombodComment "//.*$" contains=@Spell
syntax region sombodComment start="/\*" end="\*/" contains=@Spell
syntax match sombodDirective "^\s*#.*$"
highlight default link sombodStatement Statement
highlight default link sombodOperator Operator
highlight default link sombodCall Keyword
highlight default link sombodObject Identifier
highlight default link sombodConstant Constant
highlight default link sombodType Type
highlight default link sombodMethod Function
highlight default link sombodNumber Number
highlight default link sombodEscape SpecialChar
highlight default link sombodText String
highlight default link sombodComment Comment
highlight default link sombodDirective PreProc
let b:current_syntax = "sombod"
