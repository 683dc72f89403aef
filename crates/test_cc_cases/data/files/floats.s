        .globl main
main:   mtc1 $4,$f12
        jr $31
