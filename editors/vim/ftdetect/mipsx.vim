" A file NAME.mipsx is a MIPS-X source. A file NAME.s is one if its first lines load or store as MIPS-X does, or name this assembler.
autocmd BufNewFile,BufRead *.mipsx setfiletype mipsx
autocmd BufNewFile,BufRead *.s call s:Detect()

function! s:Detect() abort
    for line in getline(1, 50)
        if line =~? '\v^[^;]*<(ld|st|addi|la)\s+[^;]*(\[r\d+\]|#)' || line =~? '^\s*;.*mips-x'
            setlocal filetype=mipsx
            return
        endif
    endfor
endfunction
