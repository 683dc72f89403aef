        .globl main
main:   la $2,x
        jr $31
        .data
x:      .space 300000
