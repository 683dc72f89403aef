        .globl  main
1:
main:   b       1f
        jr      $31
