" Modules of capc: NAME.cap
if exists("b:current_syntax")
  finish
endif

syntax case match
syntax keyword capDeclaration import def rec fun val
syntax keyword capControl if then else box unbox boundary exit repeat
syntax keyword capConstant true false unit cap
syntax keyword capType Unit Bool Int Str Any Console File Counter Exit Box
syntax match capNumber "\<\d\+"
syntax match capOperator "=>\|->\|<:\|==\|[=<+*^?-]"
syntax match capOperation "\.\@<=\(print\|say\|read\|write\|tick\)\ze\s*("
syntax match capDefinition "\(\<def\s\+\(rec\s\+\)\?\)\@<=_\@!\K\k*"
syntax match capString "\"[^\"\\]\{0,200}\""
syntax match capComment "//.*$"

highlight default link capDeclaration Keyword
highlight default link capControl Statement
highlight default link capConstant Constant
highlight default link capType Type
highlight default link capNumber Number
highlight default link capOperator Operator
highlight default link capOperation Function
highlight default link capDefinition Identifier
highlight default link capString String
highlight default link capComment Comment

let b:current_syntax = "cap"
