 # A frame that is larger than the memory ends the program: nothing is printed after the first letter.
	.text
	.globl	main
main:
	addiu	$sp,$sp,-8
	sw	$31,4($sp)
	li	$4,72
	sw	$4,1020($0)
	jal	deep
	sw	$4,1020($0)
	lw	$31,4($sp)
	addiu	$sp,$sp,8
	jr	$31
deep:
	li	$12,-262152
	addu	$sp,$sp,$12
	sw	$31,4($sp)
	li	$4,73
	sw	$4,1020($0)
	jr	$31
	.data
	.globl	_stack_limit
_stack_limit:
	.word	_end
