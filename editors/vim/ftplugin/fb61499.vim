" What Vim and Neovim do in a text of IEC 61499: comments, and the indentation that `format` makes.
if exists('b:did_ftplugin') | finish | endif
let b:did_ftplugin = 1
setlocal commentstring=//\ %s comments=s1:(*,mb:*,ex:*),:// shiftwidth=2 softtabstop=2 expandtab
setlocal formatoptions-=t formatoptions+=croql
let b:undo_ftplugin = 'setlocal commentstring< comments< shiftwidth< softtabstop< expandtab< formatoptions<'
