        .text
        .globl  last
last:
        addiu   $sp,$sp,-8
        sw      $31,4($sp)
        jal     helper                  # this text's own, although third.s shares one
        jal     other                   # of third.s, although first.s has its own
        lw      $4,value                # this text's own
        sw      $4,1020($0)
        lw      $31,4($sp)
        addiu   $sp,$sp,8
        jr      $31
helper:
        li      $4,67
        sw      $4,1020($0)
        jr      $31
        .data
value:  .word   69
