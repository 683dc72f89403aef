        .globl main
main:   li $9,1
        addiu $5,$9,40000
        jr $31
