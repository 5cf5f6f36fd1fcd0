autocmd BufRead,BufNewFile *.source,*.lgp30 setfiletype lgp30
