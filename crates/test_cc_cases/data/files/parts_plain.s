	.file	1 "parts.c"
	.section .mdebug.abi32
	.previous
	.nan	legacy
	.module	softfloat
	.module	nooddspreg
	.module	arch=mips1
	.text
	.align	2
	.set	nomips16
	.set	nomicromips
	.ent	put_text
	.type	put_text, @function
put_text:
	.frame	$fp,8,$31		# vars= 0, regs= 1/0, args= 0, gp= 0
	.mask	0x40000000,-4
	.fmask	0x00000000,0
	addiu	$sp,$sp,-8
	sw	$fp,4($sp)
	move	$fp,$sp
	sw	$4,8($fp)
	b	$L2
$L3:
	lw	$2,8($fp)
	#nop
	addiu	$3,$2,1
	sw	$3,8($fp)
	lb	$3,0($2)
	li	$2,1020			# 0x3fc
	sw	$3,0($2)
$L2:
	lw	$2,8($fp)
	#nop
	lb	$2,0($2)
	#nop
	bne	$2,$0,$L3
	.set	noreorder
	nop
	.set	reorder
	.set	noreorder
	nop
	.set	reorder
	move	$sp,$fp
	lw	$fp,4($sp)
	addiu	$sp,$sp,8
	jr	$31
	.end	put_text
	.size	put_text, .-put_text
	.align	2
	.set	nomips16
	.set	nomicromips
	.ent	put_number
	.type	put_number, @function
put_number:
	.frame	$fp,24,$31		# vars= 16, regs= 1/0, args= 0, gp= 0
	.mask	0x40000000,-4
	.fmask	0x00000000,0
	addiu	$sp,$sp,-24
	sw	$fp,20($sp)
	move	$fp,$sp
	sw	$4,24($fp)
	sw	$0,0($fp)
$L5:
	lw	$3,24($fp)
	li	$2,10			# 0xa
	divu	$0,$3,$2
	mfhi	$2
	andi	$2,$2,0x00ff
	addiu	$2,$2,48
	andi	$4,$2,0x00ff
	lw	$3,0($fp)
	#nop
	addiu	$2,$3,1
	sw	$2,0($fp)
	sll	$2,$4,24
	sra	$2,$2,24
	addu	$3,$fp,$3
	sb	$2,4($3)
	lw	$3,24($fp)
	li	$2,10			# 0xa
	divu	$0,$3,$2
	mfhi	$2
	mflo	$2
	sw	$2,24($fp)
	lw	$2,24($fp)
	#nop
	bne	$2,$0,$L5
	b	$L6
$L7:
	lw	$2,0($fp)
	#nop
	addiu	$2,$2,-1
	sw	$2,0($fp)
	lw	$2,0($fp)
	#nop
	addu	$2,$fp,$2
	lb	$3,4($2)
	li	$2,1020			# 0x3fc
	sw	$3,0($2)
$L6:
	lw	$2,0($fp)
	#nop
	bne	$2,$0,$L7
	.set	noreorder
	nop
	.set	reorder
	.set	noreorder
	nop
	.set	reorder
	move	$sp,$fp
	lw	$fp,20($sp)
	addiu	$sp,$sp,24
	jr	$31
	.end	put_number
	.size	put_number, .-put_number
	.rdata
	.align	2
$LC0:
	.ascii	"0123456789abcdef\000"
	.text
	.align	2
	.set	nomips16
	.set	nomicromips
	.ent	put_hex
	.type	put_hex, @function
put_hex:
	.frame	$fp,16,$31		# vars= 8, regs= 1/0, args= 0, gp= 0
	.mask	0x40000000,-4
	.fmask	0x00000000,0
	addiu	$sp,$sp,-16
	sw	$fp,12($sp)
	move	$fp,$sp
	sw	$4,16($fp)
	li	$2,28			# 0x1c
	sw	$2,0($fp)
	b	$L9
$L10:
	lw	$3,16($fp)
	lw	$2,0($fp)
	#nop
	srl	$2,$3,$2
	andi	$3,$2,0xf
	la	$2,$LC0
	addu	$2,$3,$2
	lb	$3,0($2)
	li	$2,1020			# 0x3fc
	sw	$3,0($2)
	lw	$2,0($fp)
	#nop
	addiu	$2,$2,-4
	sw	$2,0($fp)
$L9:
	lw	$2,0($fp)
	#nop
	bgez	$2,$L10
	.set	noreorder
	nop
	.set	reorder
	.set	noreorder
	nop
	.set	reorder
	move	$sp,$fp
	lw	$fp,12($sp)
	addiu	$sp,$sp,16
	jr	$31
	.end	put_hex
	.size	put_hex, .-put_hex
	.data
	.align	2
	.type	one, @object
	.size	one, 11
one:
	.byte	-1
	.4byte	-2
	.2byte	-3
	.4byte	-1985229329
	.align	2
	.type	signs, @object
	.size	signs, 9
signs:
	.ascii	"\001\376\003\374\005\372\007\370\011"
	.align	2
	.type	halves, @object
	.size	halves, 10
halves:
	.half	1
	.half	-1
	.half	256
	.half	-32768
	.half	7
	.align	2
	.type	text, @object
	.size	text, 11
text:
	.ascii	"bytes move\000"
	.text
	.align	2
	.set	nomips16
	.set	nomicromips
	.ent	turn
	.type	turn, @function
turn:
	.frame	$fp,16,$31		# vars= 8, regs= 1/0, args= 0, gp= 0
	.mask	0x40000000,-4
	.fmask	0x00000000,0
	addiu	$sp,$sp,-16
	sw	$fp,12($sp)
	move	$fp,$sp
	sw	$4,16($fp)
	sw	$5,20($fp)
	sw	$0,0($fp)
	b	$L12
$L13:
	lw	$2,0($fp)
	lw	$3,16($fp)
	#nop
	addu	$2,$3,$2
	lbu	$2,0($2)
	#nop
	sb	$2,4($fp)
	lw	$2,20($fp)
	#nop
	addiu	$3,$2,-1
	lw	$2,0($fp)
	#nop
	subu	$2,$3,$2
	move	$3,$2
	lw	$2,16($fp)
	#nop
	addu	$3,$2,$3
	lw	$2,0($fp)
	lw	$4,16($fp)
	#nop
	addu	$2,$4,$2
	lb	$3,0($3)
	#nop
	sb	$3,0($2)
	lw	$2,20($fp)
	#nop
	addiu	$3,$2,-1
	lw	$2,0($fp)
	#nop
	subu	$2,$3,$2
	move	$3,$2
	lw	$2,16($fp)
	#nop
	addu	$2,$2,$3
	lbu	$3,4($fp)
	#nop
	sb	$3,0($2)
	lw	$2,0($fp)
	#nop
	addiu	$2,$2,1
	sw	$2,0($fp)
$L12:
	lw	$2,20($fp)
	#nop
	srl	$3,$2,31
	addu	$2,$3,$2
	sra	$2,$2,1
	move	$3,$2
	lw	$2,0($fp)
	#nop
	slt	$2,$2,$3
	bne	$2,$0,$L13
	.set	noreorder
	nop
	.set	reorder
	.set	noreorder
	nop
	.set	reorder
	move	$sp,$fp
	lw	$fp,12($sp)
	addiu	$sp,$sp,16
	jr	$31
	.end	turn
	.size	turn, .-turn
	.align	2
	.set	nomips16
	.set	nomicromips
	.ent	copy
	.type	copy, @function
copy:
	.frame	$fp,8,$31		# vars= 0, regs= 1/0, args= 0, gp= 0
	.mask	0x40000000,-4
	.fmask	0x00000000,0
	addiu	$sp,$sp,-8
	sw	$fp,4($sp)
	move	$fp,$sp
	sw	$4,8($fp)
	sw	$5,12($fp)
	lw	$2,8($fp)
	lw	$3,12($fp)
	#nop
	lwl	$4,0($3)
	#nop
	lwr	$4,3($3)
	#nop
	move	$5,$4
	lwl	$4,4($3)
	#nop
	lwr	$4,7($3)
	swl	$5,0($2)
	swr	$5,3($2)
	swl	$4,4($2)
	swr	$4,7($2)
	lbu	$4,8($3)
	#nop
	sb	$4,8($2)
	lbu	$4,9($3)
	#nop
	sb	$4,9($2)
	lbu	$3,10($3)
	#nop
	sb	$3,10($2)
	lw	$2,8($fp)
	#nop
	lwl	$3,1($2)
	#nop
	lwr	$3,4($2)
	li	$2,16908288			# 0x1020000
	ori	$2,$2,0x304
	addu	$3,$3,$2
	lw	$2,8($fp)
	#nop
	swl	$3,1($2)
	swr	$3,4($2)
	lw	$2,8($fp)
	#nop
	lbu	$3,5($2)
	#nop
	sll	$3,$3,8
	lbu	$2,6($2)
	#nop
	or	$2,$2,$3
	sll	$2,$2,16
	sra	$2,$2,16
	sll	$2,$2,16
	sra	$2,$2,16
	andi	$2,$2,0xffff
	addiu	$2,$2,-5
	andi	$2,$2,0xffff
	sll	$4,$2,16
	sra	$4,$4,16
	lw	$2,8($fp)
	andi	$3,$4,0xffff
	srl	$3,$3,8
	andi	$6,$3,0xffff
	lbu	$3,5($2)
	#nop
	andi	$3,$3,0
	move	$5,$3
	move	$3,$6
	or	$3,$5,$3
	sb	$3,5($2)
	andi	$3,$4,0xffff
	andi	$5,$3,0xff
	lbu	$3,6($2)
	#nop
	andi	$3,$3,0
	move	$4,$3
	move	$3,$5
	or	$3,$4,$3
	sb	$3,6($2)
	lw	$2,8($fp)
	#nop
	lwl	$3,7($2)
	#nop
	lwr	$3,10($2)
	li	$2,-65536			# 0xffffffffffff0000
	xor	$3,$3,$2
	lw	$2,8($fp)
	#nop
	swl	$3,7($2)
	swr	$3,10($2)
	.set	noreorder
	nop
	.set	reorder
	move	$sp,$fp
	lw	$fp,4($sp)
	addiu	$sp,$sp,8
	jr	$31
	.end	copy
	.size	copy, .-copy
	.align	2
	.globl	main
	.set	nomips16
	.set	nomicromips
	.ent	main
	.type	main, @function
main:
	.frame	$fp,80,$31		# vars= 56, regs= 2/0, args= 16, gp= 0
	.mask	0xc0000000,-4
	.fmask	0x00000000,0
	addiu	$sp,$sp,-80
	sw	$31,76($sp)
	sw	$fp,72($sp)
	move	$fp,$sp
	sw	$0,16($fp)
	li	$5,10			# 0xa
	la	$4,text
	jal	turn
	la	$4,text
	jal	put_text
	li	$2,1020			# 0x3fc
	li	$3,10			# 0xa
	sw	$3,0($2)
	addiu	$2,$fp,32
	addiu	$2,$2,11
	la	$5,one
	move	$4,$2
	jal	copy
	lb	$2,43($fp)
	#nop
	move	$4,$2
	jal	put_hex
	lw	$2,44($fp)
	#nop
	move	$4,$2
	jal	put_hex
	lh	$2,48($fp)
	#nop
	move	$4,$2
	jal	put_hex
	lwl	$2,50($fp)
	#nop
	lwr	$2,53($fp)
	#nop
	move	$4,$2
	jal	put_hex
	li	$2,1020			# 0x3fc
	li	$3,10			# 0xa
	sw	$3,0($2)
	sw	$0,20($fp)
	b	$L16
$L17:
	lw	$3,16($fp)
	#nop
	move	$2,$3
	sll	$2,$2,1
	addu	$2,$2,$3
	lw	$4,20($fp)
	la	$3,signs
	addu	$3,$4,$3
	lb	$3,0($3)
	#nop
	addu	$2,$2,$3
	sw	$2,16($fp)
	lw	$2,20($fp)
	#nop
	addiu	$2,$2,1
	sw	$2,20($fp)
$L16:
	lw	$2,20($fp)
	#nop
	slt	$2,$2,9
	bne	$2,$0,$L17
	lw	$2,16($fp)
	#nop
	move	$4,$2
	jal	put_hex
	sw	$0,24($fp)
	b	$L18
$L19:
	lw	$2,24($fp)
	#nop
	sll	$3,$2,1
	la	$2,halves
	addu	$2,$3,$2
	lhu	$2,0($2)
	#nop
	move	$3,$2
	move	$2,$3
	sll	$2,$2,1
	addu	$2,$2,$3
	andi	$2,$2,0xffff
	addiu	$2,$2,1
	andi	$3,$2,0xffff
	lw	$2,24($fp)
	#nop
	sll	$4,$2,1
	la	$2,halves
	addu	$2,$4,$2
	sh	$3,0($2)
	lw	$2,24($fp)
	#nop
	sll	$3,$2,1
	la	$2,halves
	addu	$2,$3,$2
	lhu	$2,0($2)
	#nop
	sll	$2,$2,16
	sra	$2,$2,16
	move	$4,$2
	jal	put_hex
	lw	$2,24($fp)
	#nop
	addiu	$2,$2,1
	sw	$2,24($fp)
$L18:
	lw	$2,24($fp)
	#nop
	slt	$2,$2,5
	bne	$2,$0,$L19
	addiu	$2,$fp,32
	addiu	$2,$2,11
	sw	$2,28($fp)
	b	$L20
$L21:
	lw	$2,28($fp)
	#nop
	lbu	$2,0($2)
	#nop
	addiu	$2,$2,7
	andi	$3,$2,0x00ff
	lw	$2,28($fp)
	#nop
	sb	$3,0($2)
	lw	$2,28($fp)
	#nop
	lbu	$2,0($2)
	#nop
	move	$4,$2
	jal	put_hex
	lw	$2,28($fp)
	#nop
	addiu	$2,$2,1
	sw	$2,28($fp)
$L20:
	addiu	$2,$fp,32
	addiu	$2,$2,22
	lw	$3,28($fp)
	#nop
	sltu	$2,$3,$2
	bne	$2,$0,$L21
	li	$2,1020			# 0x3fc
	li	$3,10			# 0xa
	sw	$3,0($2)
	move	$2,$0
	move	$sp,$fp
	lw	$31,76($sp)
	lw	$fp,72($sp)
	addiu	$sp,$sp,80
	jr	$31
	.end	main
	.size	main, .-main
	.ident	"GCC: (Debian 12.2.0-14) 12.2.0"
	.section	.note.GNU-stack,"",@progbits
