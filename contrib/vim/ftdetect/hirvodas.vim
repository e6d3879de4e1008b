autocmd BufNewFile,BufRead *.mac set filetype=macro10
autocmd BufNewFile,BufRead *.queue,*.run set filetype=lockqueue
