" SCL of Soilannual. What matches at one place, and stands further down, wins.
if exists("b:current_syntax")
  finish
endif
syntax case match
syntax match sclBad "[^ \t\r]"
syntax match sclPunctuation "[{}();:,]"
syntax match sclOperator "==\|!=\|<=\|>=\|[=<>+*/%-]"
syntax match sclNumber "0\|[1-9][0-9]*"
syntax match sclBad "0[0-9]\+"
syntax match sclName "\<[A-Za-z_][A-Za-z0-9_]*\>"
syntax match sclLabel "\<[A-Za-z_][A-Za-z0-9_]*\>\ze[ \t]*:"
syntax match sclComment "//.*$"
syntax keyword sclStructure scl
syntax keyword sclStorage input output local
syntax keyword sclType bool int
syntax keyword sclStatement if else goto fork par join pause
syntax keyword sclBoolean true false
syntax keyword sclWordOperator not and or
syntax keyword sclFunction min max
syntax keyword sclBad chart region initial final state go strong weak immediate do
highlight default link sclBad Error
highlight default link sclPunctuation Delimiter
highlight default link sclOperator Operator
highlight default link sclNumber Number
highlight default link sclLabel Label
highlight default link sclComment Comment
highlight default link sclStructure Structure
highlight default link sclStorage StorageClass
highlight default link sclType Type
highlight default link sclStatement Statement
highlight default link sclBoolean Boolean
highlight default link sclWordOperator Operator
highlight default link sclFunction Function
let b:current_syntax = "scl"
