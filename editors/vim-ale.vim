" bench61499 in Vim 9 with ALE. In .vimrc, after what loads ALE: source /path/to/editors/vim-ale.vim
" Another command for the language server, before that: let g:bench61499_server = ['/path/to/clients/lsp', '--connect', ':6149']
let s:server = get(g:, 'bench61499_server', [expand('<sfile>:p:h:h') . '/clients/lsp'])

" Colours, comments and indentation.
let &runtimepath .= ',' . expand('<sfile>:p:h') . '/vim'
filetype plugin on
syntax enable
runtime ftdetect/fb61499.vim

call ale#linter#Define('fb61499', {
\   'name': 'bench61499',
\   'lsp': 'stdio',
\   'executable': s:server[0],
\   'command': join(['%e'] + map(s:server[1:], 'shellescape(v:val)')),
\   'project_root': {_ -> getcwd()},
\ })
