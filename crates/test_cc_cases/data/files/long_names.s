        .text
        .globl main
main:   addiu $sp,$sp,-8
        sw $31,4($sp)
        li $4,0
        li $5,111
        jal a_name_that_is_as_long_as_one_may_be_xxxxxxxxxxxxxxxxxxxxxxxxxxxxxxxxxxxxxxxxxxxxxxxxxxxxxxxxxxxxxxxxxxxxxxxxxxxxxxxxxxxxxxxxxxxxxxxxxxxxxxxxxxxxxxxxxxxxxxxxxxxxxxxxxxxxxxxxxxxxxxxxxxxxxxxxxxxxxxxxxxxxxxxxxxxxxxxxxxxxxxxx
        la $6,table
        lw $6,32($6)
        jr $6
$a_place_whose_name_is_too_long_to_share_a_line_0:
$a_place_whose_name_is_too_long_to_share_a_line_1:
$a_place_whose_name_is_too_long_to_share_a_line_2:
$a_place_whose_name_is_too_long_to_share_a_line_3:
$a_place_whose_name_is_too_long_to_share_a_line_4:
$a_place_whose_name_is_too_long_to_share_a_line_5:
$a_place_whose_name_is_too_long_to_share_a_line_6:
$a_place_whose_name_is_too_long_to_share_a_line_7:
        break
$a_place_whose_name_is_too_long_to_share_a_line_8:
        li $5,107
        la $6,a_name_that_is_as_long_as_one_may_be_xxxxxxxxxxxxxxxxxxxxxxxxxxxxxxxxxxxxxxxxxxxxxxxxxxxxxxxxxxxxxxxxxxxxxxxxxxxxxxxxxxxxxxxxxxxxxxxxxxxxxxxxxxxxxxxxxxxxxxxxxxxxxxxxxxxxxxxxxxxxxxxxxxxxxxxxxxxxxxxxxxxxxxxxxxxxxxxxxxxxxxxx
        jalr $6
        li $4,1
        li $5,33
        bgtu $4,$0,a_name_that_is_as_long_as_one_may_be_xxxxxxxxxxxxxxxxxxxxxxxxxxxxxxxxxxxxxxxxxxxxxxxxxxxxxxxxxxxxxxxxxxxxxxxxxxxxxxxxxxxxxxxxxxxxxxxxxxxxxxxxxxxxxxxxxxxxxxxxxxxxxxxxxxxxxxxxxxxxxxxxxxxxxxxxxxxxxxxxxxxxxxxxxxxxxxxxxxxxxxxx
        break
a_name_that_is_as_long_as_one_may_be_xxxxxxxxxxxxxxxxxxxxxxxxxxxxxxxxxxxxxxxxxxxxxxxxxxxxxxxxxxxxxxxxxxxxxxxxxxxxxxxxxxxxxxxxxxxxxxxxxxxxxxxxxxxxxxxxxxxxxxxxxxxxxxxxxxxxxxxxxxxxxxxxxxxxxxxxxxxxxxxxxxxxxxxxxxxxxxxxxxxxxxxx:
        sw $5,1020($0)
        bne $4,$0,$end
        jr $31
$end:   li $5,10
        sw $5,1020($0)
        lw $31,4($sp)
        addiu $sp,$sp,8
        jr $31
        .rdata
        .align 2
table:  .word $a_place_whose_name_is_too_long_to_share_a_line_0,$a_place_whose_name_is_too_long_to_share_a_line_1,$a_place_whose_name_is_too_long_to_share_a_line_2,$a_place_whose_name_is_too_long_to_share_a_line_3,$a_place_whose_name_is_too_long_to_share_a_line_4,$a_place_whose_name_is_too_long_to_share_a_line_5,$a_place_whose_name_is_too_long_to_share_a_line_6,$a_place_whose_name_is_too_long_to_share_a_line_7,$a_place_whose_name_is_too_long_to_share_a_line_8
