" Extended SCCharts of Soilannual: those of charts, and words that are names everywhere else.
if exists("b:current_syntax")
  finish
endif
runtime! syntax/chart.vim
unlet b:current_syntax
syntax match extendedStorage "\<extended\ze\s\+chart\>"
syntax match extendedStorage "\<\(const\|pre\)\ze\s\+\(bool\|int\)\>"
syntax match extendedStorage "\<signal\ze\s\+[A-Za-z][A-Za-z0-9_]*\s*;"
syntax match extendedStorage "\([;{}]\_s*\)\@<=\(module\|use\)\ze\s\+[A-Za-z][A-Za-z0-9_]*\s*("
syntax match extendedStorage "\()\s*\)\@<=as\ze\s\+[A-Za-z][A-Za-z0-9_]*\s*;"
syntax match extendedStatement "\(\<do\s\+\|,\s*\)\@<=emit\ze\s\+[A-Za-z]"
syntax match extendedStatement "\<\(entry\|exit\)\ze\s\+do\>"
syntax match extendedStatement "\<during\ze\s\+\(do\|if\)\>"
syntax match extendedStatement "\(\<\(go\|strong\|weak\)\s\+\)\@<=after\>"
syntax match extendedStatement "\(\<\(go\|strong\|weak\)\s\+after\>[^;]\{-}[A-Za-z0-9_)]\s\+\)\@<=of\>\ze\s*\(\(and\|or\|if\|do\)\>\)\@![A-Za-z0-9(]"
syntax match extendedStatement "\(->\s*\)\@<=shallow\s\+history\ze\s\+[A-Za-z]"
syntax region extendedComment start="/\*" end="\*/"
syntax sync fromstart
highlight default link extendedStorage StorageClass
highlight default link extendedComment Comment
highlight default link extendedStatement Statement
let b:current_syntax = "extended"
