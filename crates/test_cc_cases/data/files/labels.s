        .globl main
main:   la $2,table
        jr $31
table2: .rdata
table:  .word table-main
