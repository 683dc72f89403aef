 # Registers by their names.
        .text
        .globl  main
main:
        li      $t0,65
        move    $a1,$t0
        addiu   $v0,$a1,1
        sw      $t0,1020($zero)
        sw      $v0,1020($zero)
        addiu   $s0,$v0,1
        addiu   $s5,$s0,1
        sw      $s0,1020($0)
        sw      $21,1020($0)
        li      $t7,10
        sw      $15,1020($0)
        jr      $ra
