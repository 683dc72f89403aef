        .globl main
main:   jr $31
