setlocal comments=s1:/*,mb:*,ex:*/,:// commentstring=//\ %s shiftwidth=2 expandtab
