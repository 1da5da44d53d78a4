autocmd BufRead,BufNewFile *.shim setfiletype shim
