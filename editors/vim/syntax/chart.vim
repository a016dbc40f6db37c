" SCCharts of Soilannual. What matches at one place, and stands further down, wins.
if exists("b:current_syntax")
  finish
endif
syntax case match
syntax match chartBad "[^ \t\r]"
syntax match chartPunctuation "[{}();,]"
syntax match chartOperator "->\|==\|!=\|<=\|>=\|[=<>+*/%-]"
syntax match chartNumber "0\|[1-9][0-9]*"
syntax match chartBad "0[0-9]\+"
syntax match chartName "\<[A-Za-z][A-Za-z0-9_]*\>"
syntax match chartBad "\<_[A-Za-z0-9_]*\>"
syntax match chartComment "//.*$"
syntax keyword chartStructure chart region state
syntax keyword chartStorage input output local initial final immediate
syntax keyword chartType bool int
syntax keyword chartStatement go strong weak join if do
syntax keyword chartBoolean true false
syntax keyword chartWordOperator not and or
syntax keyword chartFunction min max
syntax keyword chartBad scl else goto fork par pause
highlight default link chartBad Error
highlight default link chartPunctuation Delimiter
highlight default link chartOperator Operator
highlight default link chartNumber Number
highlight default link chartComment Comment
highlight default link chartStructure Structure
highlight default link chartStorage StorageClass
highlight default link chartType Type
highlight default link chartStatement Statement
highlight default link chartBoolean Boolean
highlight default link chartWordOperator Operator
highlight default link chartFunction Function
let b:current_syntax = "chart"
