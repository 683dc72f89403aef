        .globl main
main:
        li $2,4001
        syscall
        jr $31
