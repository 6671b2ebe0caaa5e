" The texts of the Occam Transformation System, by the ends of their names. Vim itself takes .occ for occam 2; `set filetype`
" puts this one in its place.
autocmd BufNewFile,BufRead *.occ set filetype=occ
autocmd BufNewFile,BufRead *.script if getline(1) =~# '^occam-script ' | set filetype=occscript | endif
autocmd BufNewFile,BufRead *.orders if getline(1) =~# '^occam-orders ' | set filetype=occscript | endif
autocmd BufNewFile,BufRead *.normal if getline(1) =~# '^occam-normal ' | set filetype=occnormal | endif
autocmd BufNewFile,BufRead *.schedule if getline(1) =~# '^occam-schedule ' | set filetype=occnormal | endif
autocmd BufNewFile,BufRead *.behaviour if getline(1) =~# '^\%(STATE\|DIFFER\|DEADLOCK\)\>' | set filetype=occnormal | endif
