        .globl main
main:   addu $2,$22,$3
        jr $31
