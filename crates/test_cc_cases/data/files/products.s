	.section .mdebug.abi32
	.previous
	.nan	legacy
	.module	softfloat
	.module	nooddspreg
	.module	arch=mips1
	.text
$Ltext0:
	.cfi_sections	.debug_frame
	.file 1 "products.c"
	.align	2
$LFB3 = .
	.loc 1 10 56
	.cfi_startproc
	.set	nomips16
	.set	nomicromips
	.ent	take
	.type	take, @function
take:
	.frame	$sp,0,$31		# vars= 0, regs= 0/0, args= 0, gp= 0
	.mask	0x00000000,0
	.fmask	0x00000000,0
	.loc 1 11 21
	lw	$3,sum
	#nop
	sll	$2,$3,5
	srl	$3,$3,27
	or	$2,$2,$3
	.loc 1 11 34
	addu	$2,$2,$4
	.loc 1 11 9
	sw	$2,sum
	.loc 1 12 1
	jr	$31
	.end	take
	.cfi_endproc
$LFE3:
	.size	take, .-take
	.align	2
$LFB4 = .
	.loc 1 14 58
	.cfi_startproc
	.set	nomips16
	.set	nomicromips
	.ent	pair
	.type	pair, @function
pair:
	.frame	$sp,24,$31		# vars= 0, regs= 1/0, args= 16, gp= 0
	.mask	0x80000000,-4
	.fmask	0x00000000,0
	.loc 1 16 15
	mult	$4,$5
	.loc 1 14 58
	move	$6,$4
	addiu	$sp,$sp,-24
	.cfi_def_cfa_offset 24
	sw	$31,20($sp)
	.cfi_offset 31, -4
	.loc 1 23 18
	andi	$7,$5,0x1f
	.loc 1 16 15
	mfhi	$10
	mflo	$11
	#nop
	#nop
	.loc 1 18 5
	mult	$4,$5
	mflo	$4
	jal	take
	.loc 1 19 5
	move	$4,$11
	.loc 1 17 24
	multu	$6,$5
	.loc 1 19 5
	jal	take
	.loc 1 20 5
	move	$4,$10
	jal	take
	.loc 1 17 24
	mflo	$9
	.loc 1 21 5
	move	$4,$9
	jal	take
	.loc 1 17 24
	mfhi	$8
	.loc 1 22 5
	move	$4,$8
	jal	take
	.loc 1 23 5
	sll	$4,$6,$5
	jal	take
	.loc 1 24 5
	sra	$4,$6,$7
	jal	take
	.loc 1 25 5
	srl	$4,$6,$7
	jal	take
	.loc 1 26 8
	beq	$5,$0,$L4
	.loc 1 26 11 discriminator 1
	li	$2,-2147483648			# 0xffffffff80000000
	bne	$6,$2,$L5
	.loc 1 26 14 discriminator 2
	li	$2,-1			# 0xffffffffffffffff
	beq	$5,$2,$L6
$L5:
	.loc 1 27 9
	div	$0,$6,$5
	mflo	$4
	jal	take
	mfhi	$7
	.loc 1 28 9
	move	$4,$7
	jal	take
$L6:
	.loc 1 31 9
	divu	$0,$6,$5
	mflo	$4
	jal	take
	mfhi	$7
	.loc 1 32 9
	move	$4,$7
	jal	take
$L4:
	.loc 1 34 12
	li	$4,10			# 0xa
	div	$0,$6,$4
	.loc 1 34 21
	li	$3,7			# 0x7
	.loc 1 34 29
	li	$7,1000			# 0x3e8
	.loc 1 34 40
	li	$2,60			# 0x3c
	.loc 1 34 12
	mflo	$4
	#nop
	#nop
	.loc 1 34 21
	div	$0,$6,$3
	mfhi	$3
	.loc 1 34 17
	addu	$4,$4,$3
	#nop
	.loc 1 34 29
	divu	$0,$6,$7
	mflo	$7
	#nop
	#nop
	.loc 1 34 40
	divu	$0,$6,$2
	mfhi	$2
	.loc 1 34 5
	addu	$7,$7,$2
	addu	$4,$4,$7
	jal	take
	.loc 1 35 22
	sltu	$4,$6,$5
	.loc 1 35 13
	slt	$3,$6,$5
	.loc 1 35 22
	sll	$4,$4,1
	.loc 1 35 36
	slt	$2,$6,1
	.loc 1 35 51
	xor	$5,$6,$5
	.loc 1 35 36
	sll	$2,$2,2
	.loc 1 35 18
	addu	$4,$4,$3
	.loc 1 35 51
	sltu	$5,$5,1
	.loc 1 35 32
	addu	$4,$4,$2
	.loc 1 35 51
	sll	$5,$5,3
	.loc 1 35 67
	sltu	$2,$6,10
	.loc 1 35 47
	addu	$4,$4,$5
	.loc 1 35 67
	bne	$2,$0,$L7
	.loc 1 35 62
	addiu	$4,$4,16
	.loc 1 35 82
	li	$6,32			# 0x20
	.loc 1 35 5
	addu	$4,$6,$4
	jal	take
	.loc 1 36 1
	lw	$31,20($sp)
	addiu	$sp,$sp,24
	.cfi_remember_state
	.cfi_restore 31
	.cfi_def_cfa_offset 0
	jr	$31
$L7:
	.cfi_restore_state
	.loc 1 35 82 discriminator 16
	sltu	$6,$0,$6
	sll	$6,$6,5
	.loc 1 35 5 discriminator 16
	addu	$4,$6,$4
	jal	take
	.loc 1 36 1 discriminator 16
	lw	$31,20($sp)
	addiu	$sp,$sp,24
	.cfi_restore 31
	.cfi_def_cfa_offset 0
	jr	$31
	.end	pair
	.cfi_endproc
$LFE4:
	.size	pair, .-pair
	.section	.rodata.str1.4,"aMS",@progbits,1
	.align	2
$LC0:
	.ascii	"0123456789abcdef\000"
	.section	.text.startup,"ax",@progbits
	.align	2
	.globl	main
$LFB5 = .
	.loc 1 38 16
	.cfi_startproc
	.set	nomips16
	.set	nomicromips
	.ent	main
	.type	main, @function
main:
	.frame	$sp,32,$31		# vars= 0, regs= 4/0, args= 16, gp= 0
	.mask	0x80070000,-4
	.fmask	0x00000000,0
	addiu	$sp,$sp,-32
	.cfi_def_cfa_offset 32
	sw	$17,20($sp)
	.cfi_offset 17, -12
	la	$17,numbers
	sw	$18,24($sp)
	sw	$16,16($sp)
	sw	$31,28($sp)
	.cfi_offset 18, -8
	.cfi_offset 16, -16
	.cfi_offset 31, -4
	la	$14,numbers+68
$LBB7 = .
$LBB8 = .
$LBB9 = .
	.file 2 "io.h"
	.loc 2 27 14
	move	$13,$17
	la	$16,$LC0
	.loc 2 27 24
	li	$15,-4			# 0xfffffffffffffffc
$LBE9 = .
$LBE8 = .
	.loc 1 43 9
	li	$18,10			# 0xa
$L14:
$LBE7 = .
	.loc 1 38 16
	move	$12,$17
$L15:
$LBB13 = .
$LBB11 = .
	.loc 1 41 13 discriminator 3
	lw	$5,0($12)
	lw	$4,0($13)
	.loc 1 40 27 discriminator 3
	addiu	$12,$12,4
	.loc 1 41 13 discriminator 3
	jal	pair
	.loc 1 40 27 discriminator 3
	bne	$12,$14,$L15
$LBE11 = .
	.loc 1 42 9 discriminator 2
	lw	$4,sum
$LBB12 = .
$LBB10 = .
	.loc 2 27 14 discriminator 2
	li	$3,28			# 0x1c
$L16:
	.loc 2 28 9
	srl	$2,$4,$3
	andi	$2,$2,0xf
	addu	$2,$16,$2
	lb	$2,0($2)
	.loc 2 27 32
	addiu	$3,$3,-4
	.loc 2 28 9
	sw	$2,1020($0)
	.loc 2 27 24
	bne	$3,$15,$L16
$LBE10 = .
$LBE12 = .
	.loc 1 39 23 discriminator 2
	addiu	$13,$13,4
	.loc 1 43 9 discriminator 2
	sw	$18,1020($0)
	.loc 1 39 23 discriminator 2
	bne	$13,$14,$L14
$LBE13 = .
	.loc 1 46 1
	lw	$31,28($sp)
	lw	$18,24($sp)
	lw	$17,20($sp)
	lw	$16,16($sp)
	move	$2,$0
	addiu	$sp,$sp,32
	.cfi_restore 16
	.cfi_restore 17
	.cfi_restore 18
	.cfi_restore 31
	.cfi_def_cfa_offset 0
	jr	$31
	.end	main
	.cfi_endproc
$LFE5:
	.size	main, .-main
	.data
	.align	2
	.type	sum, @object
	.size	sum, 4
sum:
	.word	1
	.rdata
	.align	2
	.type	numbers, @object
	.size	numbers, 68
numbers:
	.word	0
	.word	1
	.word	-1
	.word	2
	.word	-3
	.word	7
	.word	100
	.word	-255
	.word	256
	.word	65535
	.word	65536
	.word	-65537
	.word	16777216
	.word	123456789
	.word	-2147483647
	.word	-2147483648
	.word	2147483647
	.text
$Letext0:
	.section	.debug_info,"",@progbits
$Ldebug_info0:
	.4byte	0x77
	.2byte	0x5
	.byte	0x1
	.byte	0x4
	.4byte	$Ldebug_abbrev0
	.uleb128 0x1
	.4byte	$LASF2
	.byte	0x1d
	.4byte	$LASF3
	.4byte	$LASF4
	.4byte	$LLRL1
	.4byte	0
	.4byte	$Ldebug_line0
	.uleb128 0x2
	.4byte	$LASF5
	.byte	0x1
	.byte	0x26
	.byte	0x5
	.4byte	$LFB5
	.4byte	$LFE5-$LFB5
	.uleb128 0x1
	.byte	0x9c
	.4byte	0x4d
	.uleb128 0x3
	.4byte	0x71
	.4byte	$LBB8
	.4byte	$LLRL0
	.byte	0x1
	.byte	0x2a
	.byte	0x9
	.byte	0
	.uleb128 0x4
	.4byte	$LASF0
	.byte	0x1
	.byte	0xe
	.byte	0x27
	.4byte	$LFB4
	.4byte	$LFE4-$LFB4
	.uleb128 0x1
	.byte	0x9c
	.uleb128 0x5
	.4byte	$LASF1
	.byte	0x1
	.byte	0xa
	.byte	0x27
	.4byte	$LFB3
	.4byte	$LFE3-$LFB3
	.uleb128 0x1
	.byte	0x9c
	.uleb128 0x6
	.4byte	$LASF6
	.byte	0x2
	.byte	0x1a
	.byte	0xd
	.byte	0x1
	.byte	0
	.section	.debug_abbrev,"",@progbits
$Ldebug_abbrev0:
	.uleb128 0x1
	.uleb128 0x11
	.byte	0x1
	.uleb128 0x25
	.uleb128 0xe
	.uleb128 0x13
	.uleb128 0xb
	.uleb128 0x3
	.uleb128 0xe
	.uleb128 0x1b
	.uleb128 0xe
	.uleb128 0x55
	.uleb128 0x17
	.uleb128 0x11
	.uleb128 0x1
	.uleb128 0x10
	.uleb128 0x17
	.byte	0
	.byte	0
	.uleb128 0x2
	.uleb128 0x2e
	.byte	0x1
	.uleb128 0x3f
	.uleb128 0x19
	.uleb128 0x3
	.uleb128 0xe
	.uleb128 0x3a
	.uleb128 0xb
	.uleb128 0x3b
	.uleb128 0xb
	.uleb128 0x39
	.uleb128 0xb
	.uleb128 0x11
	.uleb128 0x1
	.uleb128 0x12
	.uleb128 0x6
	.uleb128 0x40
	.uleb128 0x18
	.uleb128 0x7c
	.uleb128 0x19
	.uleb128 0x1
	.uleb128 0x13
	.byte	0
	.byte	0
	.uleb128 0x3
	.uleb128 0x1d
	.byte	0
	.uleb128 0x31
	.uleb128 0x13
	.uleb128 0x52
	.uleb128 0x1
	.uleb128 0x55
	.uleb128 0x17
	.uleb128 0x58
	.uleb128 0xb
	.uleb128 0x59
	.uleb128 0xb
	.uleb128 0x57
	.uleb128 0xb
	.byte	0
	.byte	0
	.uleb128 0x4
	.uleb128 0x2e
	.byte	0
	.uleb128 0x3
	.uleb128 0xe
	.uleb128 0x3a
	.uleb128 0xb
	.uleb128 0x3b
	.uleb128 0xb
	.uleb128 0x39
	.uleb128 0xb
	.uleb128 0x11
	.uleb128 0x1
	.uleb128 0x12
	.uleb128 0x6
	.uleb128 0x40
	.uleb128 0x18
	.uleb128 0x7c
	.uleb128 0x19
	.byte	0
	.byte	0
	.uleb128 0x5
	.uleb128 0x2e
	.byte	0
	.uleb128 0x3
	.uleb128 0xe
	.uleb128 0x3a
	.uleb128 0xb
	.uleb128 0x3b
	.uleb128 0xb
	.uleb128 0x39
	.uleb128 0xb
	.uleb128 0x11
	.uleb128 0x1
	.uleb128 0x12
	.uleb128 0x6
	.uleb128 0x40
	.uleb128 0x18
	.uleb128 0x7a
	.uleb128 0x19
	.byte	0
	.byte	0
	.uleb128 0x6
	.uleb128 0x2e
	.byte	0
	.uleb128 0x3
	.uleb128 0xe
	.uleb128 0x3a
	.uleb128 0xb
	.uleb128 0x3b
	.uleb128 0xb
	.uleb128 0x39
	.uleb128 0xb
	.uleb128 0x20
	.uleb128 0xb
	.byte	0
	.byte	0
	.byte	0
	.section	.debug_aranges,"",@progbits
	.4byte	0x24
	.2byte	0x2
	.4byte	$Ldebug_info0
	.byte	0x4
	.byte	0
	.2byte	0
	.2byte	0
	.4byte	$Ltext0
	.4byte	$Letext0-$Ltext0
	.4byte	$LFB5
	.4byte	$LFE5-$LFB5
	.4byte	0
	.4byte	0
	.section	.debug_rnglists,"",@progbits
$Ldebug_ranges0:
	.4byte	$Ldebug_ranges3-$Ldebug_ranges2
$Ldebug_ranges2:
	.2byte	0x5
	.byte	0x4
	.byte	0
	.4byte	0
$LLRL0:
	.byte	0x5
	.4byte	$LBB8
	.byte	0x4
	.uleb128 $LBB8-$LBB8
	.uleb128 $LBE8-$LBB8
	.byte	0x4
	.uleb128 $LBB12-$LBB8
	.uleb128 $LBE12-$LBB8
	.byte	0
$LLRL1:
	.byte	0x7
	.4byte	$Ltext0
	.uleb128 $Letext0-$Ltext0
	.byte	0x7
	.4byte	$LFB5
	.uleb128 $LFE5-$LFB5
	.byte	0
$Ldebug_ranges3:
	.section	.debug_line,"",@progbits
$Ldebug_line0:
	.section	.debug_str,"MS",@progbits,1
$LASF0:
	.ascii	"pair\000"
$LASF1:
	.ascii	"take\000"
$LASF3:
	.ascii	"products.c\000"
$LASF6:
	.ascii	"put_hex\000"
$LASF2:
	.ascii	"GNU C17 12.2.0 -G 0 -meb -march=mips1 -mabi=32 -mfp32 -m"
	.ascii	"soft-float -mno-abicalls -mno-explicit-relocs -mno-split"
	.ascii	"-addresses -mno-check-zero-division -mllsc -mno-lxc1-sxc"
	.ascii	"1 -mips1 -mno-shared -g1 -O2 -fno-pic -fno-delayed-branc"
	.ascii	"h -ffreestanding -fno-builtin -fno-optimize-sibling-call"
	.ascii	"s -fno-asynchronous-unwind-tables -fno-stack-protector -"
	.ascii	"fno-reorder-blocks-and-partition -fno-ipa-icf -ffixed-22"
	.ascii	" -ffixed-23 -ffixed-24 -ffixed-25\000"
$LASF5:
	.ascii	"main\000"
$LASF4:
	.ascii	"/work/h/cc/crates/test_cc_cases/data/c\000"
	.ident	"GCC: (Debian 12.2.0-14) 12.2.0"
	.section	.note.GNU-stack,"",@progbits
