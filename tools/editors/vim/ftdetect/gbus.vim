autocmd BufRead,BufNewFile *.gbus setfiletype gbus
