	.section .mdebug.abi32
	.previous
	.nan	legacy
	.module	softfloat
	.module	nooddspreg
	.module	arch=mips1
	.text
$Ltext0:
	.cfi_sections	.debug_frame
	.file 1 "calls.c"
	.align	2
$LFB1 = .
	.file 2 "io.h"
	.loc 2 16 36
	.cfi_startproc
	.set	nomips16
	.set	nomicromips
	.ent	put_number
	.type	put_number, @function
put_number:
	.frame	$sp,16,$31		# vars= 16, regs= 0/0, args= 0, gp= 0
	.mask	0x00000000,0
	.fmask	0x00000000,0
	.loc 2 18 9
	move	$5,$0
	.loc 2 20 35
	li	$6,10			# 0xa
	.loc 2 16 36
	addiu	$sp,$sp,-16
	.cfi_def_cfa_offset 16
$L2:
	.loc 2 20 35 discriminator 1
	divu	$0,$4,$6
	.loc 2 20 21 discriminator 1
	addiu	$5,$5,1
	addu	$2,$sp,$5
	.loc 2 21 12 discriminator 1
	sltu	$7,$4,10
	.loc 2 20 35 discriminator 1
	mfhi	$3
	.loc 2 20 31 discriminator 1
	addiu	$3,$3,48
	.loc 2 20 25 discriminator 1
	sb	$3,-1($2)
	.loc 2 21 14 discriminator 1
	mflo	$4
	.loc 2 21 12 discriminator 1
	beq	$7,$0,$L2
$L3:
	.loc 2 23 9
	lb	$3,-1($2)
	.loc 2 22 12
	addiu	$2,$2,-1
	.loc 2 23 9
	sw	$3,1020($0)
	.loc 2 22 12
	bne	$sp,$2,$L3
	.loc 2 24 1
	addiu	$sp,$sp,16
	.cfi_def_cfa_offset 0
	jr	$31
	.end	put_number
	.cfi_endproc
$LFE1:
	.size	put_number, .-put_number
	.align	2
$LFB3 = .
	.loc 1 5 30
	.cfi_startproc
	.set	nomips16
	.set	nomicromips
	.ent	add
	.type	add, @function
add:
	.frame	$sp,0,$31		# vars= 0, regs= 0/0, args= 0, gp= 0
	.mask	0x00000000,0
	.fmask	0x00000000,0
	.loc 1 5 46
	addu	$2,$4,$5
	jr	$31
	.end	add
	.cfi_endproc
$LFE3:
	.size	add, .-add
	.align	2
$LFB4 = .
	.loc 1 6 31
	.cfi_startproc
	.set	nomips16
	.set	nomicromips
	.ent	take
	.type	take, @function
take:
	.frame	$sp,0,$31		# vars= 0, regs= 0/0, args= 0, gp= 0
	.mask	0x00000000,0
	.fmask	0x00000000,0
	.loc 1 6 47
	subu	$2,$4,$5
	jr	$31
	.end	take
	.cfi_endproc
$LFE4:
	.size	take, .-take
	.align	2
$LFB5 = .
	.loc 1 7 31
	.cfi_startproc
	.set	nomips16
	.set	nomicromips
	.ent	both
	.type	both, @function
both:
	.frame	$sp,0,$31		# vars= 0, regs= 0/0, args= 0, gp= 0
	.mask	0x00000000,0
	.fmask	0x00000000,0
	.loc 1 7 47
	and	$2,$4,$5
	jr	$31
	.end	both
	.cfi_endproc
$LFE5:
	.size	both, .-both
	.section	.rodata.str1.4,"aMS",@progbits,1
	.align	2
$LC0:
	.ascii	"many\000"
	.text
	.align	2
$LFB7 = .
	.loc 1 21 60
	.cfi_startproc
	.set	nomips16
	.set	nomicromips
	.ent	name
	.type	name, @function
name:
	.frame	$sp,0,$31		# vars= 0, regs= 0/0, args= 0, gp= 0
	.mask	0x00000000,0
	.fmask	0x00000000,0
	sltu	$2,$4,10
	beq	$2,$0,$L13
	sll	$4,$4,2
	la	$2,CSWTCH.20
	addu	$2,$2,$4
	lw	$2,0($2)
	jr	$31
$L13:
	.loc 1 21 60
	la	$2,$LC0
	.loc 1 33 1
	jr	$31
	.end	name
	.cfi_endproc
$LFE7:
	.size	name, .-name
	.align	2
$LFB8 = .
	.loc 1 35 59
	.cfi_startproc
	.set	nomips16
	.set	nomicromips
	.ent	last
	.type	last, @function
last:
	.frame	$fp,24,$31		# vars= 0, regs= 1/0, args= 16, gp= 0
	.mask	0x40000000,-4
	.fmask	0x00000000,0
	.loc 1 36 14
	sll	$2,$4,2
	addiu	$2,$2,7
	srl	$2,$2,3
	.loc 1 35 59
	addiu	$sp,$sp,-24
	.cfi_def_cfa_offset 24
	.loc 1 36 14
	sll	$2,$2,3
	.loc 1 35 59
	sw	$fp,20($sp)
	.cfi_offset 30, -4
	move	$fp,$sp
	.cfi_def_cfa_register 30
	.loc 1 36 14
	subu	$sp,$sp,$2
	move	$7,$sp
	addiu	$8,$4,-1
	addiu	$5,$7,4
	li	$2,1			# 0x1
$LBB6 = .
	.loc 1 38 14
	li	$3,1			# 0x1
$L15:
	.loc 1 39 31 discriminator 3
	sll	$6,$2,1
	addu	$2,$6,$2
	.loc 1 39 35 discriminator 3
	addu	$2,$2,$3
	.loc 1 38 33 discriminator 3
	addiu	$3,$3,1
	.loc 1 39 17 discriminator 3
	sw	$2,0($5)
	.loc 1 38 23 discriminator 3
	addiu	$5,$5,4
	bne	$4,$3,$L15
$LBE6 = .
	.loc 1 40 16
	sll	$2,$8,2
	addu	$7,$7,$2
	.loc 1 41 1
	lw	$2,0($7)
	move	$sp,$fp
	.cfi_def_cfa_register 29
	lw	$fp,20($sp)
	addiu	$sp,$sp,24
	.cfi_restore 30
	.cfi_def_cfa_offset 0
	jr	$31
	.end	last
	.cfi_endproc
$LFE8:
	.size	last, .-last
	.align	2
$LFB11 = .
	.loc 1 11 38
	.cfi_startproc
	.set	nomips16
	.set	nomicromips
	.ent	sum.constprop.0
	.type	sum.constprop.0, @function
sum.constprop.0:
	.frame	$sp,8,$31		# vars= 8, regs= 0/0, args= 0, gp= 0
	.mask	0x00000000,0
	.fmask	0x00000000,0
	addiu	$sp,$sp,-8
	.cfi_def_cfa_offset 8
	.loc 1 16 13
	addu	$2,$5,$6
	.loc 1 16 13
	lw	$3,24($sp)
	addu	$2,$2,$7
	addu	$2,$2,$3
	lw	$3,28($sp)
	.loc 1 11 38
	sw	$5,12($sp)
	.loc 1 16 13
	addu	$2,$2,$3
	lw	$3,32($sp)
	.loc 1 11 38
	sw	$6,16($sp)
	.loc 1 16 13
	addu	$2,$2,$3
	.loc 1 14 5
	addiu	$3,$sp,12
	sw	$3,0($sp)
	.loc 1 19 1
	lw	$3,36($sp)
	.loc 1 11 38
	sw	$7,20($sp)
	.loc 1 19 1
	addu	$2,$2,$3
	addiu	$sp,$sp,8
	.cfi_def_cfa_offset 0
	jr	$31
	.end	sum.constprop.0
	.cfi_endproc
$LFE11:
	.size	sum.constprop.0, .-sum.constprop.0
	.section	.text.startup,"ax",@progbits
	.align	2
	.globl	main
$LFB9 = .
	.loc 1 43 16
	.cfi_startproc
	.set	nomips16
	.set	nomicromips
	.ent	main
	.type	main, @function
main:
	.frame	$sp,80,$31		# vars= 16, regs= 7/0, args= 32, gp= 0
	.mask	0x803f0000,-4
	.fmask	0x00000000,0
	addiu	$sp,$sp,-80
	.cfi_def_cfa_offset 80
	sw	$21,72($sp)
	sw	$20,68($sp)
	sw	$19,64($sp)
	sw	$18,60($sp)
	sw	$17,56($sp)
	sw	$16,52($sp)
	sw	$31,76($sp)
	.cfi_offset 21, -8
	.cfi_offset 20, -12
	.cfi_offset 19, -16
	.cfi_offset 18, -20
	.cfi_offset 17, -24
	.cfi_offset 16, -28
	.cfi_offset 31, -4
	la	$21,table
	.loc 1 43 16
	li	$20,77			# 0x4d
	addiu	$19,$sp,32
	la	$17,both
$LBB13 = .
$LBB14 = .
$LBB15 = .
	.loc 2 20 35
	li	$18,10			# 0xa
$LBE15 = .
$LBE14 = .
	.loc 1 44 23
	li	$16,80			# 0x50
$L24:
	.loc 1 45 23
	lw	$2,0($21)
	.loc 1 46 20
	move	$5,$20
	li	$4,1000			# 0x3e8
	.loc 1 45 16
	sw	$2,chosen
	.loc 1 46 20
	jalr	$2
$LBB17 = .
$LBB16 = .
	.loc 2 18 9
	move	$6,$0
$L21:
	.loc 2 20 35
	divu	$0,$2,$18
	.loc 2 20 21
	addiu	$6,$6,1
	addu	$3,$19,$6
	.loc 2 21 12
	sltu	$7,$2,10
	.loc 2 20 35
	mfhi	$4
	.loc 2 20 31
	addiu	$2,$4,48
	.loc 2 20 25
	sb	$2,-1($3)
	.loc 2 21 14
	mflo	$2
	.loc 2 21 12
	beq	$7,$0,$L21
	move	$2,$3
$L22:
	.loc 2 23 9
	lb	$3,-1($2)
	.loc 2 22 12
	addiu	$2,$2,-1
	.loc 2 23 9
	sw	$3,1020($0)
	.loc 2 22 12
	bne	$19,$2,$L22
$LBE16 = .
$LBE17 = .
	.loc 1 47 9
	lw	$2,chosen
	#nop
	beq	$2,$17,$L38
	li	$2,32			# 0x20
$L23:
	.loc 1 44 23 discriminator 4
	addiu	$20,$20,1
	.loc 1 47 9 discriminator 4
	sw	$2,1020($0)
	.loc 1 44 23 discriminator 4
	addiu	$21,$21,4
	bne	$20,$16,$L24
$LBE13 = .
$LBB18 = .
	.loc 1 49 14
	li	$5,-1			# 0xffffffffffffffff
	.loc 1 51 9
	li	$8,32			# 0x20
	.loc 1 49 24
	li	$6,11			# 0xb
$L27:
	.loc 1 50 9 discriminator 3
	move	$4,$5
	jal	name
$LBB19 = .
$LBB20 = .
	.loc 2 12 12 discriminator 3
	lb	$3,0($2)
	#nop
	beq	$3,$0,$L25
$L26:
	.loc 2 13 9
	addiu	$2,$2,1
	sw	$3,1020($0)
	.loc 2 12 12
	lb	$3,0($2)
	#nop
	bne	$3,$0,$L26
$L25:
$LBE20 = .
$LBE19 = .
	.loc 1 49 31
	addiu	$5,$5,1
	.loc 1 51 9
	sw	$8,1020($0)
	.loc 1 49 24
	bne	$5,$6,$L27
$LBE18 = .
	.loc 1 53 16
	li	$2,6946816			# 0x6a0000
	ori	$2,$2,0xcfc0
	sw	$2,28($sp)
	li	$2,589824			# 0x90000
	addiu	$2,$2,10176
	sw	$2,24($sp)
	li	$2,50000			# 0xc350
	sw	$2,20($sp)
	li	$2,4000			# 0xfa0
	li	$7,300			# 0x12c
	li	$6,20			# 0x14
	li	$5,1			# 0x1
	sw	$2,16($sp)
	li	$4,7			# 0x7
	jal	sum.constprop.0
	.loc 1 53 5
	move	$4,$2
	jal	put_number
	.loc 1 54 5
	sw	$8,1020($0)
	.loc 1 55 16
	li	$4,3			# 0x3
	jal	last
	.loc 1 55 26
	li	$4,20			# 0x14
	.loc 1 55 16
	move	$9,$2
	.loc 1 55 26
	jal	last
	.loc 1 55 5
	addu	$4,$9,$2
	jal	put_number
	.loc 1 58 1
	lw	$31,76($sp)
	.loc 1 56 5
	li	$2,10			# 0xa
	.loc 1 58 1
	lw	$21,72($sp)
	lw	$20,68($sp)
	lw	$19,64($sp)
	lw	$18,60($sp)
	lw	$17,56($sp)
	lw	$16,52($sp)
	.loc 1 56 5
	sw	$2,1020($0)
	.loc 1 58 1
	move	$2,$0
	addiu	$sp,$sp,80
	.cfi_remember_state
	.cfi_restore 16
	.cfi_restore 17
	.cfi_restore 18
	.cfi_restore 19
	.cfi_restore 20
	.cfi_restore 21
	.cfi_restore 31
	.cfi_def_cfa_offset 0
	jr	$31
$L38:
	.cfi_restore_state
$LBB21 = .
	.loc 1 47 9
	li	$2,33			# 0x21
	b	$L23
$LBE21 = .
	.end	main
	.cfi_endproc
$LFE9:
	.size	main, .-main
	.section	.rodata.str1.4
	.align	2
$LC1:
	.ascii	"zero\000"
	.align	2
$LC2:
	.ascii	"one\000"
	.align	2
$LC3:
	.ascii	"two\000"
	.align	2
$LC4:
	.ascii	"three\000"
	.align	2
$LC5:
	.ascii	"four\000"
	.align	2
$LC6:
	.ascii	"five\000"
	.align	2
$LC7:
	.ascii	"six\000"
	.align	2
$LC8:
	.ascii	"nine\000"
	.rdata
	.align	2
	.type	CSWTCH.20, @object
	.size	CSWTCH.20, 40
CSWTCH.20:
	.word	$LC1
	.word	$LC2
	.word	$LC3
	.word	$LC4
	.word	$LC5
	.word	$LC6
	.word	$LC7
	.word	$LC0
	.word	$LC0
	.word	$LC8
	.local	chosen
	.comm	chosen,4,4
	.align	2
	.type	table, @object
	.size	table, 12
table:
	.word	add
	.word	take
	.word	both
	.text
$Letext0:
	.section	.debug_info,"",@progbits
$Ldebug_info0:
	.4byte	0xe3
	.2byte	0x5
	.byte	0x1
	.byte	0x4
	.4byte	$Ldebug_abbrev0
	.uleb128 0x4
	.4byte	$LASF6
	.byte	0x1d
	.4byte	$LASF7
	.4byte	$LASF8
	.4byte	$LLRL1
	.4byte	0
	.4byte	$Ldebug_line0
	.uleb128 0x5
	.4byte	$LASF9
	.byte	0x1
	.byte	0x2b
	.byte	0x5
	.4byte	$LFB9
	.4byte	$LFE9-$LFB9
	.uleb128 0x1
	.byte	0x9c
	.4byte	0x5d
	.uleb128 0x6
	.4byte	0xbc
	.4byte	$LBB14
	.4byte	$LLRL0
	.byte	0x1
	.byte	0x2e
	.byte	0x9
	.uleb128 0x7
	.4byte	0xc2
	.4byte	$LBB19
	.4byte	$LBE19-$LBB19
	.byte	0x1
	.byte	0x32
	.byte	0x9
	.byte	0
	.uleb128 0x1
	.4byte	$LASF0
	.byte	0x23
	.byte	0x2b
	.4byte	$LFB8
	.4byte	$LFE8-$LFB8
	.uleb128 0x1
	.byte	0x9c
	.uleb128 0x1
	.4byte	$LASF1
	.byte	0x15
	.byte	0x2e
	.4byte	$LFB7
	.4byte	$LFE7-$LFB7
	.uleb128 0x1
	.byte	0x9c
	.uleb128 0x8
	.ascii	"sum\000"
	.byte	0x1
	.byte	0xb
	.byte	0x26
	.byte	0x1
	.uleb128 0x1
	.4byte	$LASF2
	.byte	0x7
	.byte	0xc
	.4byte	$LFB5
	.4byte	$LFE5-$LFB5
	.uleb128 0x1
	.byte	0x9c
	.uleb128 0x1
	.4byte	$LASF3
	.byte	0x6
	.byte	0xc
	.4byte	$LFB4
	.4byte	$LFE4-$LFB4
	.uleb128 0x1
	.byte	0x9c
	.uleb128 0x9
	.ascii	"add\000"
	.byte	0x1
	.byte	0x5
	.byte	0xc
	.4byte	$LFB3
	.4byte	$LFE3-$LFB3
	.uleb128 0x1
	.byte	0x9c
	.uleb128 0x2
	.4byte	$LASF4
	.byte	0x10
	.uleb128 0x2
	.4byte	$LASF5
	.byte	0xb
	.uleb128 0x3
	.4byte	0xbc
	.4byte	$LFB1
	.4byte	$LFE1-$LFB1
	.uleb128 0x1
	.byte	0x9c
	.uleb128 0x3
	.4byte	0x7f
	.4byte	$LFB11
	.4byte	$LFE11-$LFB11
	.uleb128 0x1
	.byte	0x9c
	.byte	0
	.section	.debug_abbrev,"",@progbits
$Ldebug_abbrev0:
	.uleb128 0x1
	.uleb128 0x2e
	.byte	0
	.uleb128 0x3
	.uleb128 0xe
	.uleb128 0x3a
	.uleb128 0x21
	.sleb128 1
	.uleb128 0x3b
	.uleb128 0xb
	.uleb128 0x39
	.uleb128 0xb
	.uleb128 0x11
	.uleb128 0x1
	.uleb128 0x12
	.uleb128 0x6
	.uleb128 0x40
	.uleb128 0x18
	.uleb128 0x7a
	.uleb128 0x19
	.byte	0
	.byte	0
	.uleb128 0x2
	.uleb128 0x2e
	.byte	0
	.uleb128 0x3
	.uleb128 0xe
	.uleb128 0x3a
	.uleb128 0x21
	.sleb128 2
	.uleb128 0x3b
	.uleb128 0xb
	.uleb128 0x39
	.uleb128 0x21
	.sleb128 13
	.uleb128 0x20
	.uleb128 0x21
	.sleb128 1
	.byte	0
	.byte	0
	.uleb128 0x3
	.uleb128 0x2e
	.byte	0
	.uleb128 0x31
	.uleb128 0x13
	.uleb128 0x11
	.uleb128 0x1
	.uleb128 0x12
	.uleb128 0x6
	.uleb128 0x40
	.uleb128 0x18
	.uleb128 0x7a
	.uleb128 0x19
	.byte	0
	.byte	0
	.uleb128 0x4
	.uleb128 0x11
	.byte	0x1
	.uleb128 0x25
	.uleb128 0xe
	.uleb128 0x13
	.uleb128 0xb
	.uleb128 0x3
	.uleb128 0xe
	.uleb128 0x1b
	.uleb128 0xe
	.uleb128 0x55
	.uleb128 0x17
	.uleb128 0x11
	.uleb128 0x1
	.uleb128 0x10
	.uleb128 0x17
	.byte	0
	.byte	0
	.uleb128 0x5
	.uleb128 0x2e
	.byte	0x1
	.uleb128 0x3f
	.uleb128 0x19
	.uleb128 0x3
	.uleb128 0xe
	.uleb128 0x3a
	.uleb128 0xb
	.uleb128 0x3b
	.uleb128 0xb
	.uleb128 0x39
	.uleb128 0xb
	.uleb128 0x11
	.uleb128 0x1
	.uleb128 0x12
	.uleb128 0x6
	.uleb128 0x40
	.uleb128 0x18
	.uleb128 0x7c
	.uleb128 0x19
	.uleb128 0x1
	.uleb128 0x13
	.byte	0
	.byte	0
	.uleb128 0x6
	.uleb128 0x1d
	.byte	0
	.uleb128 0x31
	.uleb128 0x13
	.uleb128 0x52
	.uleb128 0x1
	.uleb128 0x55
	.uleb128 0x17
	.uleb128 0x58
	.uleb128 0xb
	.uleb128 0x59
	.uleb128 0xb
	.uleb128 0x57
	.uleb128 0xb
	.byte	0
	.byte	0
	.uleb128 0x7
	.uleb128 0x1d
	.byte	0
	.uleb128 0x31
	.uleb128 0x13
	.uleb128 0x11
	.uleb128 0x1
	.uleb128 0x12
	.uleb128 0x6
	.uleb128 0x58
	.uleb128 0xb
	.uleb128 0x59
	.uleb128 0xb
	.uleb128 0x57
	.uleb128 0xb
	.byte	0
	.byte	0
	.uleb128 0x8
	.uleb128 0x2e
	.byte	0
	.uleb128 0x3
	.uleb128 0x8
	.uleb128 0x3a
	.uleb128 0xb
	.uleb128 0x3b
	.uleb128 0xb
	.uleb128 0x39
	.uleb128 0xb
	.uleb128 0x20
	.uleb128 0xb
	.byte	0
	.byte	0
	.uleb128 0x9
	.uleb128 0x2e
	.byte	0
	.uleb128 0x3
	.uleb128 0x8
	.uleb128 0x3a
	.uleb128 0xb
	.uleb128 0x3b
	.uleb128 0xb
	.uleb128 0x39
	.uleb128 0xb
	.uleb128 0x11
	.uleb128 0x1
	.uleb128 0x12
	.uleb128 0x6
	.uleb128 0x40
	.uleb128 0x18
	.uleb128 0x7a
	.uleb128 0x19
	.byte	0
	.byte	0
	.byte	0
	.section	.debug_aranges,"",@progbits
	.4byte	0x24
	.2byte	0x2
	.4byte	$Ldebug_info0
	.byte	0x4
	.byte	0
	.2byte	0
	.2byte	0
	.4byte	$Ltext0
	.4byte	$Letext0-$Ltext0
	.4byte	$LFB9
	.4byte	$LFE9-$LFB9
	.4byte	0
	.4byte	0
	.section	.debug_rnglists,"",@progbits
$Ldebug_ranges0:
	.4byte	$Ldebug_ranges3-$Ldebug_ranges2
$Ldebug_ranges2:
	.2byte	0x5
	.byte	0x4
	.byte	0
	.4byte	0
$LLRL0:
	.byte	0x5
	.4byte	$LBB14
	.byte	0x4
	.uleb128 $LBB14-$LBB14
	.uleb128 $LBE14-$LBB14
	.byte	0x4
	.uleb128 $LBB17-$LBB14
	.uleb128 $LBE17-$LBB14
	.byte	0
$LLRL1:
	.byte	0x7
	.4byte	$Ltext0
	.uleb128 $Letext0-$Ltext0
	.byte	0x7
	.4byte	$LFB9
	.uleb128 $LFE9-$LFB9
	.byte	0
$Ldebug_ranges3:
	.section	.debug_line,"",@progbits
$Ldebug_line0:
	.section	.debug_str,"MS",@progbits,1
$LASF1:
	.ascii	"name\000"
$LASF2:
	.ascii	"both\000"
$LASF5:
	.ascii	"put_text\000"
$LASF4:
	.ascii	"put_number\000"
$LASF0:
	.ascii	"last\000"
$LASF6:
	.ascii	"GNU C17 12.2.0 -G 0 -meb -march=mips1 -mabi=32 -mfp32 -m"
	.ascii	"soft-float -mno-abicalls -mno-explicit-relocs -mno-split"
	.ascii	"-addresses -mno-check-zero-division -mllsc -mno-lxc1-sxc"
	.ascii	"1 -mips1 -mno-shared -g1 -O2 -fno-pic -fno-delayed-branc"
	.ascii	"h -ffreestanding -fno-builtin -fno-optimize-sibling-call"
	.ascii	"s -fno-asynchronous-unwind-tables -fno-stack-protector -"
	.ascii	"fno-reorder-blocks-and-partition -fno-ipa-icf -ffixed-22"
	.ascii	" -ffixed-23 -ffixed-24 -ffixed-25\000"
$LASF8:
	.ascii	"/work/h/cc/crates/test_cc_cases/data/c\000"
$LASF9:
	.ascii	"main\000"
$LASF7:
	.ascii	"calls.c\000"
$LASF3:
	.ascii	"take\000"
	.ident	"GCC: (Debian 12.2.0-14) 12.2.0"
	.section	.note.GNU-stack,"",@progbits
