" Interfaces of som: SOM IDL in its profile, with the implementation section.
if exists("b:current_syntax")
  finish
endif
syntax keyword somidlDeclares interface attribute readonly in
syntax keyword somidlType void long boolean string
syntax keyword somidlConstant TRUE FALSE
syntax keyword somidlLeftOut module typedef struct union enum sequence const exception raises context oneway out inout short unsigned float double char octet any passthru nodata noget noset procedure nooverride callstyle
syntax keyword somidlItem contained releaseorder metaclass majorversion minorversion override select namelookup offset filestem dllname functionprefix
syntax keyword somidlSection implementation nextgroup=somidlBlock skipwhite skipempty
syntax region somidlBlock contained matchgroup=somidlBrace start="{" end="}" contains=somidlItem,somidlType,somidlLeftOut,somidlNumber,somidlText,somidlComment,somidlDirective fold
syntax match somidlNumber "\<\d\+\>"
syntax region somidlText start=+"+ skip=+\\.+ end=+"+ oneline
syntax match somidlComment "//.*$" contains=@Spell
syntax region somidlComment start="/\*" end="\*/" contains=@Spell
syntax match somidlDirective "^\s*#.*$"
highlight default link somidlDeclares Statement
highlight default link somidlSection Structure
highlight default link somidlItem Keyword
highlight default link somidlType Type
highlight default link somidlConstant Constant
highlight default link somidlLeftOut Error
highlight default link somidlNumber Number
highlight default link somidlText String
highlight default link somidlComment Comment
highlight default link somidlDirective PreProc
highlight default link somidlBrace Delimiter
let b:current_syntax = "somidl"
