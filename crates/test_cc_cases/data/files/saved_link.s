 # A function without .frame and .mask that saves its link; the word of the link is used byte by byte afterwards.
        .text
        .globl  main
main:
        addiu   $sp,$sp,-8
        sw      $31,4($sp)
        jal     first
        jal     second
        sw      $2,1020($0)
        jal     first
        li      $2,10
        sw      $2,1020($0)
        lw      $31,4($sp)
        addiu   $sp,$sp,8
        jr      $31
first:
        addiu   $sp,$sp,-16
        sw      $31,12($sp)
        jal     nothing
        lw      $31,12($sp)
        addiu   $sp,$sp,16
nothing:
        jr      $31
second:
        addiu   $sp,$sp,-16
        li      $2,65
        sb      $2,13($sp)
        sb      $2,12($sp)
        lb      $2,12($sp)
        addiu   $sp,$sp,16
        jr      $31
