autocmd BufRead,BufNewFile *.chart setfiletype chart
autocmd BufRead,BufNewFile *.extended setfiletype extended
autocmd BufRead,BufNewFile *.scl setfiletype scl
