autocmd BufNewFile,BufRead *.trace setfiletype pkvmtrace
