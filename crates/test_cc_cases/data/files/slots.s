        .globl main
main:
        .set noreorder
        jr $31
        nop
