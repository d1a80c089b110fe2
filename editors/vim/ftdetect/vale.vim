autocmd BufNewFile,BufRead *.vale setfiletype vale
