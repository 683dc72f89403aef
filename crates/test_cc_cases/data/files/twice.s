        .globl main
main:   jr $31
main:   jr $31
