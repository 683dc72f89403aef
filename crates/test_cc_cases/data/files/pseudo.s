 # Instructions that GNU's assembler makes of others, each result in 8 digits. What is wanted is what qemu-mips gives.
        .text
        .globl  main
main:
        addiu   $sp,$sp,-32
        sw      $ra,28($sp)
        sw      $s0,24($sp)
        li      $s0,-7
        li      $t0,3
        mul     $a0,$s0,$t0
        jal     show
        mul     $a0,$s0,100000
        jal     show
        rem     $a0,$s0,$t0
        jal     show
        remu    $a0,$s0,$t0
        jal     show
        rem     $a0,$s0,5
        jal     show
        div     $a0,$s0,$t0
        jal     show
        divu    $a0,$s0,1000
        jal     show
        abs     $a0,$s0
        jal     show
        move    $a0,$s0
        abs     $a0,$a0
        jal     show
        li      $a1,0
        seq     $a0,$s0,$t0
        jal     gather
        seq     $a0,$s0,-7
        jal     gather
        sne     $a0,$s0,$s0
        jal     gather
        sne     $a0,$s0,3
        jal     gather
        sge     $a0,$s0,$t0
        jal     gather
        sgeu    $a0,$s0,$t0
        jal     gather
        sgt     $a0,$t0,$s0
        jal     gather
        sgt     $a0,$t0,70000
        jal     gather
        sgtu    $a0,$t0,$s0
        jal     gather
        sle     $a0,$s0,$t0
        jal     gather
        sle     $a0,$s0,-70000
        jal     gather
        sleu    $a0,$t0,3
        jal     gather
        move    $a0,$a1
        jal     show
        li      $t2,1000
        li      $t3,1
        sgt     $v0,$t2,70000           # compared in the branch, after an instruction that needs a register of its own
        rol     $t4,$t3,$t2
        bnez    $v0,3f
        addiu   $t4,$t4,1
3:      li      $v0,0
        move    $a0,$t4
        jal     show
        li      $t1,0x12345678
        rol     $a0,$t1,8
        jal     show
        ror     $a0,$t1,4
        jal     show
        li      $t2,36
        rol     $a0,$t1,$t2
        jal     show
        move    $a0,$t1
        ror     $a0,$a0,$t0
        jal     show
        rol     $a0,$t1,0
        jal     show
        la      $t3,bytes
        ulw     $a0,1($t3)
        jal     show
        la      $a0,bytes
        ulw     $a0,3($a0)
        jal     show
        ulw     $a0,bytes+2
        jal     show
        usw     $t1,5($t3)
        lw      $a0,4($t3)
        jal     show
        lw      $a0,8($t3)
        jal     show
        lw      $s0,24($sp)
        lw      $ra,28($sp)
        addiu   $sp,$sp,32
        li      $v0,0
        jr      $ra

 # Puts the low bit of $a0 below those of $a1.
gather:
        addu    $a1,$a1,$a1
        addu    $a1,$a1,$a0
        jr      $ra

 # Prints $a0. It keeps all but $a0 and $v0.
show:
        addiu   $sp,$sp,-48
        sw      $ra,44($sp)
        sw      $s1,40($sp)
        sw      $s2,36($sp)
        sw      $t0,32($sp)
        sw      $t1,28($sp)
        sw      $t2,24($sp)
        sw      $t3,20($sp)
        sw      $a1,16($sp)
        move    $s1,$a0
        li      $s2,28
1:      srl     $a0,$s1,$s2
        andi    $a0,$a0,15
        addiu   $a0,$a0,'0'
        ble     $a0,'9',2f
        addiu   $a0,$a0,39
2:      jal     put
        addiu   $s2,$s2,-4
        bgez    $s2,1b
        li      $a0,'\n'; jal put
        lw      $a1,16($sp)
        lw      $t3,20($sp)
        lw      $t2,24($sp)
        lw      $t1,28($sp)
        lw      $t0,32($sp)
        lw      $s2,36($sp)
        lw      $s1,40($sp)
        lw      $ra,44($sp)
        addiu   $sp,$sp,48
        jr      $ra

        .data
        .align  2
bytes:  .byte   1,2,3,4,5,6,7,8,9,10,11,12
