        .globl main
other:  jr $31
