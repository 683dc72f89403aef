        .globl main
main:   addu $2,$3,symbol
        jr $31
