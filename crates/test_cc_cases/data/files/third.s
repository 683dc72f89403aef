        .text
        .globl  shared
        .globl  helper
        .globl  other
shared:
        li      $4,66
        sw      $4,1020($0)
        jr      $31
helper:
        li      $4,89
        sw      $4,1020($0)
        jr      $31
other:
        li      $4,68
        sw      $4,1020($0)
        jr      $31
        .data
        .globl  value
value:  .word   90
