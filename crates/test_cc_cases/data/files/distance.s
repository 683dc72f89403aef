        .globl  main
main:   lw      $2,second
        jr      $31
        .data
first:  .word   1
second: .word   second-first
