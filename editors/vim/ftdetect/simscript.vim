" Vim itself takes .sim for Simula.
autocmd BufRead,BufNewFile *.sim set filetype=simscript
