        .globl main
main:   jr $31
        .data
x:      .half main
