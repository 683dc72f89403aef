 # What people write: labels that are numbers, character constants, names of numbers, several statements in a line, halves of
 # addresses, settings that are kept, fills and escapes. What is wanted is what qemu-mips gives.
letter = 'A'
        .set    count,3
        .equ    step,count+1
        .text
        .globl  main
main:
        addiu   $sp,$sp,-24; sw $ra,20($sp); sw $s0,16($sp)
        .set    push
        .set    noreorder
        .set    noat
        .set    pop
        li      $s0,count
1:      li      $a0,letter              # counted down, with a label that is a number
        addu    $a0,$a0,$s0
        jal     put
        addiu   $s0,$s0,-1
        bnez    $s0,1b
        b       1f
        li      $a0,'x'
        jal     put
1:      li      $a0,'#'; jal put        # a character constant is no comment
        li      $a0,'\''; jal put
        li      $a0,';'
        jal     put
        lui     $t0,%hi(words+4)
        lw      $a0,%lo(words+4)($t0)
        jal     put
        lui     $t0,%hi(words)
        addiu   $t0,$t0,%lo(words)
        lw      $a0,0($t0)
        jal     put
        lui     $a0,%hi(0x18048)        # 2, since the lower half is negative
        srl     $a0,$a0,16
        addiu   $a0,$a0,64
        jal     put
        li      $t0,4
        lbu     $a0,text-4($t0)
        jal     put
        lbu     $a0,text+1
        jal     put
        lbu     $a0,text+2
        jal     put
        la      $t0,filled
        lbu     $a0,3($t0)
        jal     put
        lbu     $a0,step($t0)
        jal     put
        lw      $a0,8($t0)
        jal     put
        bal     2f
        li      $a0,10
        jal     put
        lw      $s0,16($sp); lw $ra,20($sp)
        addiu   $sp,$sp,24; li $v0,0; jr $ra
2:      move    $s0,$ra                 # called like a function
        li      $a0,'Z'
        jal     put
        jr      $s0

        .data
words:  .word   'P','Q'
text:   .asciz  "\x52\123\\T"
        .align  2
filled: .fill   2,2,'U'
        .fill   1,4,0x56000000
        .fill   1,4,'W'
