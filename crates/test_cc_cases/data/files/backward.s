        .globl  main
main:   b       1b
1:      jr      $31
