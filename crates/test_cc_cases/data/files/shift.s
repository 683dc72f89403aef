        .globl main
main:   sll $2,$3,32
        jr $31
