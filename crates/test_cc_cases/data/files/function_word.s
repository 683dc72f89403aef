        .globl main
main:   la $2,table
        jr $31
        .data
table:  .word main+4
