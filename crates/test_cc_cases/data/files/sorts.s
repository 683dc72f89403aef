	.section .mdebug.abi32
	.previous
	.nan	legacy
	.module	softfloat
	.module	nooddspreg
	.module	arch=mips1
	.text
$Ltext0:
	.cfi_sections	.debug_frame
	.file 1 "sorts.c"
	.section	.rodata.str1.4,"aMS",@progbits,1
	.align	2
$LC0:
	.ascii	"0123456789abcdef\000"
	.text
	.align	2
$LFB7 = .
	.loc 1 53 24
	.cfi_startproc
	.set	nomips16
	.set	nomicromips
	.ent	show
	.type	show, @function
show:
	.frame	$sp,16,$31		# vars= 16, regs= 0/0, args= 0, gp= 0
	.mask	0x00000000,0
	.fmask	0x00000000,0
	la	$7,list
	move	$3,$7
	la	$6,list+256
	.loc 1 54 14
	move	$2,$0
	.loc 1 53 24
	addiu	$sp,$sp,-16
	.cfi_def_cfa_offset 16
$L2:
$LBB11 = .
	.loc 1 56 13 discriminator 3
	lw	$4,0($3)
	.loc 1 56 19 discriminator 3
	sll	$5,$2,5
	subu	$2,$5,$2
	.loc 1 55 23 discriminator 3
	addiu	$3,$3,4
	.loc 1 56 13 discriminator 3
	addu	$2,$2,$4
	.loc 1 55 23 discriminator 3
	bne	$6,$3,$L2
$LBE11 = .
$LBB12 = .
$LBB13 = .
	.file 2 "io.h"
	.loc 2 27 14
	li	$4,28			# 0x1c
	la	$6,$LC0
	.loc 2 27 24
	li	$5,-4			# 0xfffffffffffffffc
$L3:
	.loc 2 28 9
	srl	$3,$2,$4
	andi	$3,$3,0xf
	addu	$3,$6,$3
	lb	$3,0($3)
	.loc 2 27 32
	addiu	$4,$4,-4
	.loc 2 28 9
	sw	$3,1020($0)
	.loc 2 27 24
	bne	$4,$5,$L3
$LBE13 = .
$LBE12 = .
	.loc 1 58 5
	li	$2,32			# 0x20
	sw	$2,1020($0)
	.loc 1 59 24
	lw	$2,0($7)
$LBB14 = .
$LBB15 = .
	.loc 2 18 9
	move	$5,$0
$LBE15 = .
$LBE14 = .
	.loc 1 59 24
	addiu	$2,$2,500
$LBB17 = .
$LBB16 = .
	.loc 2 20 35
	li	$6,10			# 0xa
$L4:
	divu	$0,$2,$6
	.loc 2 20 21
	addiu	$5,$5,1
	addu	$3,$sp,$5
	.loc 2 21 12
	sltu	$7,$2,10
	.loc 2 20 35
	mfhi	$4
	.loc 2 20 31
	addiu	$2,$4,48
	.loc 2 20 25
	sb	$2,-1($3)
	.loc 2 21 14
	mflo	$2
	.loc 2 21 12
	beq	$7,$0,$L4
	move	$2,$3
$L5:
	.loc 2 23 9
	lb	$3,-1($2)
	.loc 2 22 12
	addiu	$2,$2,-1
	.loc 2 23 9
	sw	$3,1020($0)
	.loc 2 22 12
	bne	$sp,$2,$L5
$LBE16 = .
$LBE17 = .
	.loc 1 60 5
	li	$2,10			# 0xa
	sw	$2,1020($0)
	.loc 1 61 1
	addiu	$sp,$sp,16
	.cfi_def_cfa_offset 0
	jr	$31
	.end	show
	.cfi_endproc
$LFE7:
	.size	show, .-show
	.align	2
$LFB9 = .
	.loc 1 41 13
	.cfi_startproc
	.set	nomips16
	.set	nomicromips
	.ent	merge.constprop.0
	.type	merge.constprop.0, @function
merge.constprop.0:
	.frame	$sp,32,$31		# vars= 0, regs= 4/0, args= 16, gp= 0
	.mask	0x80070000,-4
	.fmask	0x00000000,0
	.loc 1 42 8
	slt	$2,$5,2
	bne	$2,$0,$L24
	.loc 1 41 13
	addiu	$sp,$sp,-32
	.cfi_def_cfa_offset 32
	sw	$18,24($sp)
	.cfi_offset 18, -8
	.loc 1 44 9
	sra	$18,$5,1
	.loc 1 41 13
	sw	$17,20($sp)
	.cfi_offset 17, -12
	move	$17,$5
	.loc 1 45 5
	move	$5,$18
	.loc 1 41 13
	sw	$31,28($sp)
	sw	$16,16($sp)
	.cfi_offset 31, -4
	.cfi_offset 16, -16
	move	$16,$4
	.loc 1 45 5
	jal	merge.constprop.0
	.loc 1 46 13
	sll	$4,$18,2
	.loc 1 46 5
	addu	$4,$16,$4
	subu	$5,$17,$18
	jal	merge.constprop.0
	la	$6,other
	sll	$9,$17,2
	addu	$10,$9,$6
	move	$2,$6
	.loc 1 44 30
	move	$7,$18
	.loc 1 44 23
	move	$4,$0
$L18:
$LBB20 = .
	.loc 1 48 48
	sll	$3,$7,2
	addu	$3,$16,$3
	.loc 1 48 23
	slt	$5,$4,$18
	.loc 1 48 62
	beq	$17,$7,$L27
	.loc 1 48 40
	sll	$8,$4,2
	.loc 1 48 48
	lw	$3,0($3)
	.loc 1 48 40
	addu	$8,$16,$8
	.loc 1 48 23
	beq	$5,$0,$L16
	.loc 1 48 40
	lw	$5,0($8)
	#nop
	.loc 1 48 36
	slt	$8,$3,$5
	bne	$8,$0,$L16
	move	$3,$5
$L15:
	.loc 1 48 58
	addiu	$4,$4,1
$L17:
	.loc 1 48 14
	sw	$3,0($2)
	.loc 1 47 23
	addiu	$2,$2,4
	bne	$2,$10,$L18
	move	$4,$16
	addu	$3,$16,$9
$L19:
$LBE20 = .
$LBB21 = .
	.loc 1 50 17
	lw	$2,0($6)
	.loc 1 49 23
	addiu	$4,$4,4
	addiu	$6,$6,4
	.loc 1 50 14
	sw	$2,-4($4)
	.loc 1 49 23
	bne	$3,$4,$L19
$LBE21 = .
	.loc 1 51 1
	lw	$31,28($sp)
	lw	$18,24($sp)
	lw	$17,20($sp)
	lw	$16,16($sp)
	addiu	$sp,$sp,32
	.cfi_remember_state
	.cfi_restore 16
	.cfi_restore 17
	.cfi_restore 18
	.cfi_restore 31
	.cfi_def_cfa_offset 0
	jr	$31
$L16:
	.cfi_restore_state
$LBB22 = .
	.loc 1 48 67
	addiu	$7,$7,1
	b	$L17
$L27:
	.loc 1 48 40
	sll	$3,$4,2
	addu	$3,$16,$3
	lw	$3,0($3)
	b	$L15
$L24:
	.cfi_def_cfa_offset 0
	.cfi_restore 16
	.cfi_restore 17
	.cfi_restore 18
	.cfi_restore 31
	jr	$31
$LBE22 = .
	.end	merge.constprop.0
	.cfi_endproc
$LFE9:
	.size	merge.constprop.0, .-merge.constprop.0
	.align	2
$LFB10 = .
	.loc 1 24 13
	.cfi_startproc
	.set	nomips16
	.set	nomicromips
	.ent	quick.constprop.0
	.type	quick.constprop.0, @function
quick.constprop.0:
	.frame	$sp,32,$31		# vars= 0, regs= 4/0, args= 16, gp= 0
	.mask	0x80070000,-4
	.fmask	0x00000000,0
	.loc 1 25 16
	slt	$2,$4,$5
	beq	$2,$0,$L48
	.loc 1 24 13
	addiu	$sp,$sp,-32
	.cfi_def_cfa_offset 32
	sw	$18,24($sp)
	sw	$17,20($sp)
	sw	$31,28($sp)
	sw	$16,16($sp)
	.cfi_offset 18, -8
	.cfi_offset 17, -12
	.cfi_offset 31, -4
	.cfi_offset 16, -16
	move	$18,$5
	la	$17,list
$L29:
$LBB25 = .
	.loc 1 26 28
	addu	$3,$18,$4
	.loc 1 26 36
	srl	$2,$3,31
	addu	$2,$2,$3
	sra	$2,$2,1
	.loc 1 26 13
	sll	$2,$2,2
	addu	$2,$17,$2
	lw	$7,0($2)
	.loc 1 27 15
	move	$5,$18
	move	$16,$4
$L34:
	.loc 1 27 18
	slt	$2,$5,$16
	bne	$2,$0,$L35
$L52:
	.loc 1 28 21
	sll	$3,$16,2
	addu	$10,$17,$3
	lw	$6,0($10)
	.loc 1 29 21
	sll	$2,$5,2
	addu	$11,$17,$2
	.loc 1 28 25
	slt	$9,$6,$7
	.loc 1 29 21
	lw	$8,0($11)
	.loc 1 28 25
	beq	$9,$0,$L51
	addiu	$3,$3,4
	addu	$3,$17,$3
$L31:
	.loc 1 28 21
	lw	$6,0($3)
	move	$10,$3
	.loc 1 28 25
	slt	$9,$6,$7
	addiu	$3,$3,4
	.loc 1 28 35
	addiu	$16,$16,1
	.loc 1 28 25
	bne	$9,$0,$L31
	.loc 1 29 25
	slt	$3,$7,$8
	beq	$3,$0,$L32
$L39:
	addiu	$2,$2,-4
	addu	$2,$17,$2
$L33:
	.loc 1 29 21
	lw	$8,0($2)
	move	$9,$2
	.loc 1 29 25
	slt	$3,$7,$8
	addiu	$2,$2,-4
	.loc 1 29 35
	addiu	$5,$5,-1
	.loc 1 29 25
	bne	$3,$0,$L33
	.loc 1 29 21
	move	$11,$9
$L32:
	.loc 1 30 16
	slt	$2,$5,$16
	bne	$2,$0,$L34
$LBB26 = .
	.loc 1 32 24
	sw	$8,0($10)
	.loc 1 32 20
	addiu	$16,$16,1
	.loc 1 33 20
	addiu	$5,$5,-1
	.loc 1 33 24
	sw	$6,0($11)
$L54:
$LBE26 = .
	.loc 1 27 18
	slt	$2,$5,$16
	beq	$2,$0,$L52
$L35:
	.loc 1 36 9
	jal	quick.constprop.0
$LBE25 = .
	.loc 1 25 16
	slt	$2,$16,$18
	beq	$2,$0,$L53
	move	$4,$16
	b	$L29
$L51:
$LBB28 = .
	.loc 1 29 25
	slt	$3,$7,$8
	bne	$3,$0,$L39
$LBB27 = .
	.loc 1 32 24
	sw	$8,0($10)
	.loc 1 32 20
	addiu	$16,$16,1
	.loc 1 33 20
	addiu	$5,$5,-1
	.loc 1 33 24
	sw	$6,0($11)
	b	$L54
$L53:
$LBE27 = .
$LBE28 = .
	.loc 1 39 1
	lw	$31,28($sp)
	lw	$18,24($sp)
	lw	$17,20($sp)
	lw	$16,16($sp)
	addiu	$sp,$sp,32
	.cfi_restore 16
	.cfi_restore 17
	.cfi_restore 18
	.cfi_restore 31
	.cfi_def_cfa_offset 0
	jr	$31
$L48:
	jr	$31
	.end	quick.constprop.0
	.cfi_endproc
$LFE10:
	.size	quick.constprop.0, .-quick.constprop.0
	.align	2
$LFB11 = .
	.loc 1 8 13
	.cfi_startproc
	.set	nomips16
	.set	nomicromips
	.ent	fill.constprop.0
	.type	fill.constprop.0, @function
fill.constprop.0:
	.frame	$sp,0,$31		# vars= 0, regs= 0/0, args= 0, gp= 0
	.mask	0x00000000,0
	.fmask	0x00000000,0
$LBB30 = .
	.loc 1 10 21
	li	$7,1638400			# 0x190000
	.loc 1 10 14
	li	$6,1013841920			# 0x3c6e0000
	la	$4,list
	la	$8,list+256
$LBE30 = .
	.loc 1 8 13
	li	$3,1			# 0x1
$LBB31 = .
	.loc 1 10 21
	addiu	$7,$7,26125
	.loc 1 10 14
	ori	$6,$6,0xf35f
	.loc 1 11 37
	li	$5,1000			# 0x3e8
$L56:
	.loc 1 10 21
	mult	$3,$7
	.loc 1 9 23
	addiu	$4,$4,4
	.loc 1 10 21
	mflo	$3
	.loc 1 10 14
	addu	$3,$3,$6
	.loc 1 11 31
	srl	$2,$3,8
	.loc 1 11 37
	div	$0,$2,$5
	mfhi	$2
	.loc 1 11 44
	addiu	$2,$2,-500
	.loc 1 11 17
	sw	$2,-4($4)
	.loc 1 9 23
	bne	$4,$8,$L56
$LBE31 = .
	.loc 1 13 1
	jr	$31
	.end	fill.constprop.0
	.cfi_endproc
$LFE11:
	.size	fill.constprop.0, .-fill.constprop.0
	.section	.text.startup,"ax",@progbits
	.align	2
	.globl	main
$LFB8 = .
	.loc 1 63 16
	.cfi_startproc
	.set	nomips16
	.set	nomicromips
	.ent	main
	.type	main, @function
main:
	.frame	$sp,24,$31		# vars= 0, regs= 1/0, args= 16, gp= 0
	.mask	0x80000000,-4
	.fmask	0x00000000,0
	addiu	$sp,$sp,-24
	.cfi_def_cfa_offset 24
$LBB38 = .
$LBB39 = .
	.loc 1 16 14
	li	$9,1			# 0x1
	.loc 1 16 23
	li	$10,64			# 0x40
$LBE39 = .
$LBE38 = .
	.loc 1 63 16
	sw	$31,20($sp)
	.cfi_offset 31, -4
	.loc 1 64 5
	jal	fill.constprop.0
	.loc 1 65 5
	jal	show
	la	$8,list+4
	la	$7,list
$L62:
$LBB46 = .
$LBB44 = .
$LBB40 = .
	.loc 1 17 13
	lw	$6,0($8)
	move	$2,$8
	b	$L59
$L61:
	.loc 1 19 18
	sw	$3,0($2)
	.loc 1 18 18
	addiu	$2,$4,-4
	beq	$7,$2,$L63
$L59:
	.loc 1 18 22
	lw	$3,-4($2)
	move	$4,$2
	.loc 1 18 18
	slt	$5,$6,$3
	bne	$5,$0,$L61
$LBE40 = .
	.loc 1 16 29
	addiu	$9,$9,1
$LBB41 = .
	.loc 1 20 14
	sw	$6,0($4)
$LBE41 = .
	.loc 1 16 23
	addiu	$8,$8,4
	bne	$9,$10,$L62
$L66:
$LBE44 = .
$LBE46 = .
	.loc 1 67 5
	jal	show
	.loc 1 68 5
	jal	fill.constprop.0
	.loc 1 69 5
	li	$5,63			# 0x3f
	move	$4,$0
	jal	quick.constprop.0
	.loc 1 70 5
	jal	show
	.loc 1 71 5
	jal	fill.constprop.0
	.loc 1 72 5
	li	$5,64			# 0x40
	la	$4,list
	jal	merge.constprop.0
	.loc 1 73 5
	jal	show
	.loc 1 75 1
	lw	$31,20($sp)
	move	$2,$0
	addiu	$sp,$sp,24
	.cfi_remember_state
	.cfi_restore 31
	.cfi_def_cfa_offset 0
	jr	$31
$L63:
	.cfi_restore_state
$LBB47 = .
$LBB45 = .
$LBB42 = .
	move	$4,$7
$LBE42 = .
	.loc 1 16 29
	addiu	$9,$9,1
$LBB43 = .
	.loc 1 20 14
	sw	$6,0($4)
$LBE43 = .
	.loc 1 16 23
	addiu	$8,$8,4
	bne	$9,$10,$L62
	b	$L66
$LBE45 = .
$LBE47 = .
	.end	main
	.cfi_endproc
$LFE8:
	.size	main, .-main
	.local	other
	.comm	other,256,4
	.local	list
	.comm	list,256,4
	.text
$Letext0:
	.section	.debug_info,"",@progbits
$Ldebug_info0:
	.4byte	0xd4
	.2byte	0x5
	.byte	0x1
	.byte	0x4
	.4byte	$Ldebug_abbrev0
	.uleb128 0x4
	.4byte	$LASF6
	.byte	0x1d
	.4byte	$LASF7
	.4byte	$LASF8
	.4byte	$LLRL2
	.4byte	0
	.4byte	$Ldebug_line0
	.uleb128 0x5
	.4byte	$LASF9
	.byte	0x1
	.byte	0x3f
	.byte	0x5
	.4byte	$LFB8
	.4byte	$LFE8-$LFB8
	.uleb128 0x1
	.byte	0x9c
	.4byte	0x4b
	.uleb128 0x2
	.4byte	0x8e
	.4byte	$LBB38
	.4byte	$LLRL1
	.byte	0x42
	.byte	0
	.uleb128 0x6
	.4byte	$LASF10
	.byte	0x1
	.byte	0x35
	.byte	0xd
	.4byte	$LFB7
	.4byte	$LFE7-$LFB7
	.uleb128 0x1
	.byte	0x9c
	.4byte	0x80
	.uleb128 0x7
	.4byte	0x9c
	.4byte	$LBB12
	.4byte	$LBE12-$LBB12
	.byte	0x1
	.byte	0x39
	.byte	0x5
	.uleb128 0x2
	.4byte	0xa3
	.4byte	$LBB14
	.4byte	$LLRL0
	.byte	0x3b
	.byte	0
	.uleb128 0x1
	.4byte	$LASF0
	.byte	0x1
	.byte	0x29
	.uleb128 0x1
	.4byte	$LASF1
	.byte	0x1
	.byte	0x18
	.uleb128 0x1
	.4byte	$LASF2
	.byte	0x1
	.byte	0xf
	.uleb128 0x1
	.4byte	$LASF3
	.byte	0x1
	.byte	0x8
	.uleb128 0x1
	.4byte	$LASF4
	.byte	0x2
	.byte	0x1a
	.uleb128 0x1
	.4byte	$LASF5
	.byte	0x2
	.byte	0x10
	.uleb128 0x3
	.4byte	0x80
	.4byte	$LFB9
	.4byte	$LFE9-$LFB9
	.uleb128 0x1
	.byte	0x9c
	.uleb128 0x3
	.4byte	0x87
	.4byte	$LFB10
	.4byte	$LFE10-$LFB10
	.uleb128 0x1
	.byte	0x9c
	.uleb128 0x8
	.4byte	0x95
	.4byte	$LFB11
	.4byte	$LFE11-$LFB11
	.uleb128 0x1
	.byte	0x9c
	.byte	0
	.section	.debug_abbrev,"",@progbits
$Ldebug_abbrev0:
	.uleb128 0x1
	.uleb128 0x2e
	.byte	0
	.uleb128 0x3
	.uleb128 0xe
	.uleb128 0x3a
	.uleb128 0xb
	.uleb128 0x3b
	.uleb128 0xb
	.uleb128 0x39
	.uleb128 0x21
	.sleb128 13
	.uleb128 0x20
	.uleb128 0x21
	.sleb128 1
	.byte	0
	.byte	0
	.uleb128 0x2
	.uleb128 0x1d
	.byte	0
	.uleb128 0x31
	.uleb128 0x13
	.uleb128 0x52
	.uleb128 0x1
	.uleb128 0x55
	.uleb128 0x17
	.uleb128 0x58
	.uleb128 0x21
	.sleb128 1
	.uleb128 0x59
	.uleb128 0xb
	.uleb128 0x57
	.uleb128 0x21
	.sleb128 5
	.byte	0
	.byte	0
	.uleb128 0x3
	.uleb128 0x2e
	.byte	0
	.uleb128 0x31
	.uleb128 0x13
	.uleb128 0x11
	.uleb128 0x1
	.uleb128 0x12
	.uleb128 0x6
	.uleb128 0x40
	.uleb128 0x18
	.uleb128 0x7c
	.uleb128 0x19
	.byte	0
	.byte	0
	.uleb128 0x4
	.uleb128 0x11
	.byte	0x1
	.uleb128 0x25
	.uleb128 0xe
	.uleb128 0x13
	.uleb128 0xb
	.uleb128 0x3
	.uleb128 0xe
	.uleb128 0x1b
	.uleb128 0xe
	.uleb128 0x55
	.uleb128 0x17
	.uleb128 0x11
	.uleb128 0x1
	.uleb128 0x10
	.uleb128 0x17
	.byte	0
	.byte	0
	.uleb128 0x5
	.uleb128 0x2e
	.byte	0x1
	.uleb128 0x3f
	.uleb128 0x19
	.uleb128 0x3
	.uleb128 0xe
	.uleb128 0x3a
	.uleb128 0xb
	.uleb128 0x3b
	.uleb128 0xb
	.uleb128 0x39
	.uleb128 0xb
	.uleb128 0x11
	.uleb128 0x1
	.uleb128 0x12
	.uleb128 0x6
	.uleb128 0x40
	.uleb128 0x18
	.uleb128 0x7c
	.uleb128 0x19
	.uleb128 0x1
	.uleb128 0x13
	.byte	0
	.byte	0
	.uleb128 0x6
	.uleb128 0x2e
	.byte	0x1
	.uleb128 0x3
	.uleb128 0xe
	.uleb128 0x3a
	.uleb128 0xb
	.uleb128 0x3b
	.uleb128 0xb
	.uleb128 0x39
	.uleb128 0xb
	.uleb128 0x11
	.uleb128 0x1
	.uleb128 0x12
	.uleb128 0x6
	.uleb128 0x40
	.uleb128 0x18
	.uleb128 0x7a
	.uleb128 0x19
	.uleb128 0x1
	.uleb128 0x13
	.byte	0
	.byte	0
	.uleb128 0x7
	.uleb128 0x1d
	.byte	0
	.uleb128 0x31
	.uleb128 0x13
	.uleb128 0x11
	.uleb128 0x1
	.uleb128 0x12
	.uleb128 0x6
	.uleb128 0x58
	.uleb128 0xb
	.uleb128 0x59
	.uleb128 0xb
	.uleb128 0x57
	.uleb128 0xb
	.byte	0
	.byte	0
	.uleb128 0x8
	.uleb128 0x2e
	.byte	0
	.uleb128 0x31
	.uleb128 0x13
	.uleb128 0x11
	.uleb128 0x1
	.uleb128 0x12
	.uleb128 0x6
	.uleb128 0x40
	.uleb128 0x18
	.uleb128 0x7a
	.uleb128 0x19
	.byte	0
	.byte	0
	.byte	0
	.section	.debug_aranges,"",@progbits
	.4byte	0x24
	.2byte	0x2
	.4byte	$Ldebug_info0
	.byte	0x4
	.byte	0
	.2byte	0
	.2byte	0
	.4byte	$Ltext0
	.4byte	$Letext0-$Ltext0
	.4byte	$LFB8
	.4byte	$LFE8-$LFB8
	.4byte	0
	.4byte	0
	.section	.debug_rnglists,"",@progbits
$Ldebug_ranges0:
	.4byte	$Ldebug_ranges3-$Ldebug_ranges2
$Ldebug_ranges2:
	.2byte	0x5
	.byte	0x4
	.byte	0
	.4byte	0
$LLRL0:
	.byte	0x5
	.4byte	$LBB14
	.byte	0x4
	.uleb128 $LBB14-$LBB14
	.uleb128 $LBE14-$LBB14
	.byte	0x4
	.uleb128 $LBB17-$LBB14
	.uleb128 $LBE17-$LBB14
	.byte	0
$LLRL1:
	.byte	0x5
	.4byte	$LBB38
	.byte	0x4
	.uleb128 $LBB38-$LBB38
	.uleb128 $LBE38-$LBB38
	.byte	0x4
	.uleb128 $LBB46-$LBB38
	.uleb128 $LBE46-$LBB38
	.byte	0x4
	.uleb128 $LBB47-$LBB38
	.uleb128 $LBE47-$LBB38
	.byte	0
$LLRL2:
	.byte	0x7
	.4byte	$Ltext0
	.uleb128 $Letext0-$Ltext0
	.byte	0x7
	.4byte	$LFB8
	.uleb128 $LFE8-$LFB8
	.byte	0
$Ldebug_ranges3:
	.section	.debug_line,"",@progbits
$Ldebug_line0:
	.section	.debug_str,"MS",@progbits,1
$LASF2:
	.ascii	"insert\000"
$LASF5:
	.ascii	"put_number\000"
$LASF1:
	.ascii	"quick\000"
$LASF3:
	.ascii	"fill\000"
$LASF10:
	.ascii	"show\000"
$LASF4:
	.ascii	"put_hex\000"
$LASF6:
	.ascii	"GNU C17 12.2.0 -G 0 -meb -march=mips1 -mabi=32 -mfp32 -m"
	.ascii	"soft-float -mno-abicalls -mno-explicit-relocs -mno-split"
	.ascii	"-addresses -mno-check-zero-division -mllsc -mno-lxc1-sxc"
	.ascii	"1 -mips1 -mno-shared -g1 -O2 -fno-pic -fno-delayed-branc"
	.ascii	"h -ffreestanding -fno-builtin -fno-optimize-sibling-call"
	.ascii	"s -fno-asynchronous-unwind-tables -fno-stack-protector -"
	.ascii	"fno-reorder-blocks-and-partition -fno-ipa-icf -ffixed-22"
	.ascii	" -ffixed-23 -ffixed-24 -ffixed-25\000"
$LASF8:
	.ascii	"/work/h/cc/crates/test_cc_cases/data/c\000"
$LASF9:
	.ascii	"main\000"
$LASF7:
	.ascii	"sorts.c\000"
$LASF0:
	.ascii	"merge\000"
	.ident	"GCC: (Debian 12.2.0-14) 12.2.0"
	.section	.note.GNU-stack,"",@progbits
