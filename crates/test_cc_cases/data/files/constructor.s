        .globl main
main:   jr $31
        .section .ctors,"aw"
        .word main
