" Tells vim which files ipanema.vim is for. It belongs in a folder `ftdetect` (see ipanema.vim).
autocmd BufRead,BufNewFile *.policy,*.trace,*.history,*.ran setfiletype ipanema
autocmd FileType ipanema setlocal commentstring=#\ %s
