        .globl main
main:   lw $2,packed+1
        jr $31
        .data
        .align 2
packed: .word 1,2
