        .globl main
main:
        add.s $f0,$f2,$f4
        jr $31
