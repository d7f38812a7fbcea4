autocmd BufNewFile,BufRead *.schedule setfiletype schedule
