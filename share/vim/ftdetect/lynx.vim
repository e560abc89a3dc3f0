" Modules of LYNX (*.lynx), scripts for `lynx drive` and plans (*.script, *.plan whose first lines name kernels or a version), and transcripts
" (*.transcript with the first line of one).
" The file types are not called lynx, since Vim has that one for the settings of a browser.
autocmd BufNewFile,BufRead *.lynx setfiletype lynxmodule
autocmd BufNewFile,BufRead *.script if getline(1, 50)->match('^\(kernels\|version\) \d') >= 0 | setfiletype lynxscript | endif
autocmd BufNewFile,BufRead *.plan if getline(1, 50)->match('^\(kernels\|version\) \d') >= 0 | setfiletype lynxplan | endif
autocmd BufNewFile,BufRead *.transcript if getline(1) =~# '^transcript \d' | setfiletype lynxtranscript | endif
