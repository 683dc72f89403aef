        .globl main
main:
        frob $2,$3
        jr $31
