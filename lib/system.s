 # What C cannot say: the end of the program, a byte of the input, and jumps out of functions. It is written as gcc
 # writes assembly, since the translator reads both alike. `break 1023` ends the program, and register 2 then has its
 # status. A jmp_buf is the number of its slot in jump.c, the stack pointer, the frame pointer and registers 16 to 21, a
 # word each (22 and 23 are the translator's). A place of code is only stored, loaded and jumped to.
	.text

	.align	2
	.globl	_Exit
	.ent	_Exit
	.type	_Exit, @function
_Exit:
	.frame	$sp,0,$31
	.mask	0x00000000,0
	.fmask	0x00000000,0
	move	$2,$4
	break	1023
	.end	_Exit
	.size	_Exit, .-_Exit

 # A source has input where a load names the input's address, so the address stands here as a number.
	.align	2
	.globl	_take_input
	.ent	_take_input
	.type	_take_input, @function
_take_input:
	.frame	$sp,0,$31
	.mask	0x00000000,0
	.fmask	0x00000000,0
	lw	$2,1016($0)
	jr	$31
	.end	_take_input
	.size	_take_input, .-_take_input

	.align	2
	.globl	setjmp
	.ent	setjmp
	.type	setjmp, @function
setjmp:
	.frame	$sp,24,$31
	.mask	0x80000000,-4
	.fmask	0x00000000,0
	addiu	$sp,$sp,-24
	sw	$31,20($sp)
	sw	$4,24($sp)
	jal	_jump_slot
	lw	$4,24($sp)
	sw	$2,0($4)
	sll	$2,$2,2
	la	$3,_jump_places
	addu	$3,$3,$2
	lw	$31,20($sp)
	sw	$31,0($3)
	addiu	$sp,$sp,24
	sw	$sp,4($4)
	sw	$fp,8($4)
	sw	$16,12($4)
	sw	$17,16($4)
	sw	$18,20($4)
	sw	$19,24($4)
	sw	$20,28($4)
	sw	$21,32($4)
	move	$2,$0
	jr	$31
	.end	setjmp
	.size	setjmp, .-setjmp

 # The stack that is left is cleared: places of code stand in it, which must not be met as numbers.
	.align	2
	.globl	longjmp
	.ent	longjmp
	.type	longjmp, @function
longjmp:
	.frame	$sp,0,$31
	.mask	0x00000000,0
	.fmask	0x00000000,0
	lw	$2,0($4)
	sll	$2,$2,2
	la	$3,_jump_places
	addu	$3,$3,$2
	lw	$31,0($3)
	move	$2,$sp
	lw	$sp,4($4)
	b	$Lcleared
$Lclear:
	sw	$0,0($2)
	addiu	$2,$2,4
$Lcleared:
	bne	$2,$sp,$Lclear
	lw	$fp,8($4)
	lw	$16,12($4)
	lw	$17,16($4)
	lw	$18,20($4)
	lw	$19,24($4)
	lw	$20,28($4)
	lw	$21,32($4)
	move	$2,$5
	bne	$2,$0,$Lnot_zero
	li	$2,1
$Lnot_zero:
	jr	$31
	.end	longjmp
	.size	longjmp, .-longjmp
