 # Three texts with names of their own and shared ones; a datum that is empty, and one after a byte.
        .text
        .globl  main
main:
        addiu   $sp,$sp,-8
        sw      $31,4($sp)
        jal     helper                  # this text's own
        jal     shared                  # of third.s
        jal     last                    # of second.s
        lw      $4,value                # this text's own
        sw      $4,1020($0)
        la      $8,alone                # it has an address, although it is empty
        sltu    $4,$8,1024
        addiu   $4,$4,71
        sw      $4,1020($0)
        lb      $4,odd
        sw      $4,1020($0)
        lh      $4,even                 # its alignment is its own, after a byte
        sw      $4,1020($0)
        la      $8,even
        andi    $4,$8,1
        addiu   $4,$4,74
        sw      $4,1020($0)
        li      $4,10
        sw      $4,1020($0)
        lw      $31,4($sp)
        addiu   $sp,$sp,8
        jr      $31
helper:
        li      $4,65
        sw      $4,1020($0)
        jr      $31
other:
        li      $4,88
        sw      $4,1020($0)
        jr      $31
        .data
value:  .word   70
        .rdata
alone:
        .data
odd:    .byte   72
        .align  1
even:   .half   73
