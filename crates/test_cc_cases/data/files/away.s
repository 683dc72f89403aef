 # A jump to a label of another function, as of a non-local goto and of __builtin_longjmp: what the jump gets is the label's address,
 # a value that C has. The frame of the other function comes back with it. That function saves all registers, 22 and 23 too.
	.text
	.align	2
	.ent	away
away:
	.frame	$fp,8,$31
	.mask	0x40000000,-4
	addiu	$sp,$sp,-8
	la	$2,buffer
	sw	$fp,4($sp)
	move	$fp,$sp
	lw	$3,4($2)
	lw	$4,0($2)
	lw	$sp,8($2)
	move	$fp,$4
	jr	$3
	.end	away
	.globl	main
	.ent	main
main:
	.frame	$sp,24,$31
	.mask	0x80c00000,-4
	addiu	$sp,$sp,-24
	la	$2,buffer
	la	$3,$L5
	sw	$31,20($sp)
	sw	$23,16($sp)
	sw	$22,12($sp)
	li	$5,66
	sw	$5,8($sp)
	sw	$fp,0($2)
	sw	$3,4($2)
	sw	$sp,8($2)
	li	$4,65
	sw	$4,1020($0)
	jal	away
	li	$4,63
	sw	$4,1020($0)
$L5:
	lw	$4,8($sp)
	sw	$4,1020($0)
	li	$4,10
	sw	$4,1020($0)
	lw	$31,20($sp)
	lw	$23,16($sp)
	lw	$22,12($sp)
	addiu	$sp,$sp,24
	jr	$31
	.end	main
	.local	buffer
	.comm	buffer,20,4
