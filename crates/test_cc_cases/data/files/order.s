        .globl  main
f:      jal     second
main:   jal     f
        jal     first
