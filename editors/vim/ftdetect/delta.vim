autocmd BufRead,BufNewFile *.delta setfiletype delta
