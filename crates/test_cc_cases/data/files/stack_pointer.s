 # The stack pointer written by li, la, lui and sll, and loaded: what is stored by it is found again. The console gets a letter each.
        .text
        .globl  main
main:
        move    $16,$sp
        la      $sp,room
        li      $4,65
        sw      $4,8($sp)
        move    $sp,$16
        la      $8,room
        lw      $4,8($8)
        sw      $4,1020($0)
        li      $sp,0x20000
        li      $4,66
        sw      $4,4($sp)
        li      $8,0x20000
        lw      $4,4($8)
        sw      $4,1020($0)
        lui     $sp,2
        lw      $4,4($sp)
        addiu   $4,$4,1
        sw      $4,1020($0)
        li      $9,0x4000
        sll     $sp,$9,3
        lw      $4,4($sp)
        addiu   $4,$4,2
        sw      $4,1020($0)
        sw      $9,place
        lw      $sp,place
        li      $4,69
        sw      $4,0($sp)
        lw      $4,0x4000($0)
        sw      $4,1020($0)
        move    $sp,$16
        li      $4,10
        sw      $4,1020($0)
        jr      $31

        .data
        .align  2
room:   .space  64
place:  .word   0
