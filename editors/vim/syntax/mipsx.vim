" Vim syntax file: MIPS-X sources of Zanderanvil
if exists("b:current_syntax") | finish | endif
syn case ignore
setlocal iskeyword=@,48-57,_,.
syn keyword mipsxTransfer beq bne blt bge blo bhs bgt ble bhi blos b call callr jr halt jpc jpcrs
syn keyword mipsxMnemonic add sub subnc and or xor bic rotlb mstep dstep not mstart asr sh addi mov nop movfrs movtos ld st la
syn keyword mipsxDirective .code .data .word .space .input .import .export
syn match mipsxRegister "\<r\([0-9]\|[12][0-9]\|3[01]\)\>"
syn keyword mipsxRegister md pc1 pc2 pc3
syn match mipsxNumber "#\?-\?\<\(0x[0-9a-f]\+\|[0-9]\+\)\>"
syn match mipsxLabel "\<[a-z_][a-z0-9_.]*\s*:"
syn match mipsxComment ";.*$"
hi def link mipsxTransfer Conditional
hi def link mipsxMnemonic Statement
hi def link mipsxDirective PreProc
hi def link mipsxRegister Identifier
hi def link mipsxNumber Number
hi def link mipsxLabel Label
hi def link mipsxComment Comment
let b:current_syntax = "mipsx"
