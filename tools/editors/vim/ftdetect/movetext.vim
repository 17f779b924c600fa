" Made by scripts/make-editors from the tables of tools/movetext; don't edit.
function! s:Detect() abort
  for line in getline(1, 40)
    if line !~# '^\s*\(//.*\)\=$'
      if line =~# '^\s*\(module\|publish\|run\|show\|audit\|record\|bytes\)\>'
        set filetype=movetext
      endif
      return
    endif
  endfor
endfunction
autocmd BufRead,BufNewFile *.text call s:Detect()
