        .globl main
main:   li $2,0
        jr $31
main:
        jr $31
