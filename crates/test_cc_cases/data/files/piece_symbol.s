        .globl  main
main:   li      $2,1; jal nothing; jr $31
