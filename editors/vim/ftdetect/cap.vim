autocmd BufRead,BufNewFile *.cap setfiletype cap
