" :make checks the source. Set g:zanderanvil to the path of ./mx if zanderanvil is not installed.
if exists("current_compiler") | finish | endif
let current_compiler = "zanderanvil"
let &l:makeprg = get(g:, "zanderanvil", "zanderanvil") . " check --colour never %:S"
setlocal errorformat=%f:%l:%c:\ %trror[%*[^]]]:\ %m,%f:%l:%c:\ %tarning[%*[^]]]:\ %m,%f:%l:%c:\ %trror:\ %m,%f:%l:%c:\ %tarning:\ %m,%-G%.%#
