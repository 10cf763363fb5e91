autocmd BufNewFile,BufRead *.lotos setfiletype lotos
