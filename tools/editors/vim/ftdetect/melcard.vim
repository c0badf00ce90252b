autocmd BufNewFile,BufRead *.draft,*.deck setfiletype melcard
