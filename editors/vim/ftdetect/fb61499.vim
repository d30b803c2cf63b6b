" Vim takes such a file for FreeBASIC otherwise.
augroup filetypedetect
  autocmd BufRead,BufNewFile *.fb set filetype=fb61499
augroup END
