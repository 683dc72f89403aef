        .globl main
main:   lw $2,main
        jr $31
