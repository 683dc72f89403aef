        .globl main
main:   jal missing
        jr $31
