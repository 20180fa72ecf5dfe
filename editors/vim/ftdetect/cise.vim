" A specification of the checker is a file NAME.cise.
autocmd BufNewFile,BufRead *.cise setfiletype cise
