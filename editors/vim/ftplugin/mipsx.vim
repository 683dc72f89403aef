" Settings of MIPS-X sources: comments, and :make with the checker. The plugin for other assemblers may have run for the same file
" before, so b:did_ftplugin is not asked.
let b:did_ftplugin = 1
setlocal commentstring=;\ %s
setlocal comments=:;
compiler zanderanvil
let b:undo_ftplugin = "setlocal commentstring< comments< makeprg< errorformat< | unlet! b:current_compiler"
