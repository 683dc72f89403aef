	.section .mdebug.abi32
	.previous
	.nan	legacy
	.module	softfloat
	.module	nooddspreg
	.module	arch=mips1
	.text
$Ltext0:
	.cfi_sections	.debug_frame
	.file 1 "queens.c"
	.align	2
$LFB3 = .
	.loc 1 4 78
	.cfi_startproc
	.set	nomips16
	.set	nomicromips
	.ent	solve
	.type	solve, @function
solve:
	.frame	$sp,48,$31		# vars= 0, regs= 7/0, args= 16, gp= 0
	.mask	0x803f0000,-4
	.fmask	0x00000000,0
	addiu	$sp,$sp,-48
	.cfi_def_cfa_offset 48
	sw	$31,44($sp)
	sw	$21,40($sp)
	sw	$20,36($sp)
	sw	$19,32($sp)
	sw	$18,28($sp)
	sw	$17,24($sp)
	sw	$16,20($sp)
	.cfi_offset 31, -4
	.cfi_offset 21, -8
	.cfi_offset 20, -12
	.cfi_offset 19, -16
	.cfi_offset 18, -20
	.cfi_offset 17, -24
	.cfi_offset 16, -28
	.loc 1 6 8
	beq	$5,$7,$L4
$LBB2 = .
	.loc 1 8 46
	or	$16,$4,$6
	.loc 1 8 32
	nor	$16,$16,$5
	.loc 1 8 19
	and	$16,$16,$7
	move	$17,$5
	move	$18,$7
	move	$19,$4
	move	$20,$6
$LBE2 = .
	.loc 1 5 9
	move	$21,$0
$LBB5 = .
	.loc 1 8 56
	beq	$16,$0,$L1
$L3:
$LBB3 = .
	.loc 1 9 31 discriminator 3
	subu	$5,$0,$16
	.loc 1 9 18 discriminator 3
	and	$5,$5,$16
	.loc 1 10 61 discriminator 3
	or	$6,$20,$5
	.loc 1 10 29 discriminator 3
	or	$4,$19,$5
	.loc 1 10 17 discriminator 3
	move	$7,$18
	srl	$6,$6,1
	or	$5,$17,$5
	sll	$4,$4,1
	jal	solve
$LBE3 = .
	.loc 1 8 75 discriminator 3
	addiu	$3,$16,-1
	.loc 1 8 67 discriminator 3
	and	$16,$16,$3
$LBB4 = .
	.loc 1 10 14 discriminator 3
	addu	$21,$21,$2
$LBE4 = .
	.loc 1 8 56 discriminator 3
	bne	$16,$0,$L3
$L1:
$LBE5 = .
	.loc 1 13 1
	lw	$31,44($sp)
	lw	$20,36($sp)
	lw	$19,32($sp)
	lw	$18,28($sp)
	lw	$17,24($sp)
	lw	$16,20($sp)
	move	$2,$21
	lw	$21,40($sp)
	addiu	$sp,$sp,48
	.cfi_remember_state
	.cfi_restore 16
	.cfi_restore 17
	.cfi_restore 18
	.cfi_restore 19
	.cfi_restore 20
	.cfi_restore 21
	.cfi_restore 31
	.cfi_def_cfa_offset 0
	jr	$31
$L4:
	.cfi_restore_state
	.loc 1 7 16
	li	$21,1			# 0x1
	b	$L1
	.end	solve
	.cfi_endproc
$LFE3:
	.size	solve, .-solve
	.section	.text.startup,"ax",@progbits
	.align	2
	.globl	main
$LFB4 = .
	.loc 1 15 16
	.cfi_startproc
	.set	nomips16
	.set	nomicromips
	.ent	main
	.type	main, @function
main:
	.frame	$sp,40,$31		# vars= 16, regs= 1/0, args= 16, gp= 0
	.mask	0x80000000,-4
	.fmask	0x00000000,0
	addiu	$sp,$sp,-40
	.cfi_def_cfa_offset 40
$LBB11 = .
	.loc 1 16 14
	li	$12,1			# 0x1
	addiu	$9,$sp,16
$LBE11 = .
	.loc 1 15 16
	sw	$31,36($sp)
	.cfi_offset 31, -4
$LBB20 = .
	.loc 1 18 9
	li	$11,32			# 0x20
	.loc 1 19 39
	li	$10,1			# 0x1
$LBB12 = .
$LBB13 = .
	.file 2 "io.h"
	.loc 2 20 35
	li	$8,10			# 0xa
$L12:
$LBE13 = .
$LBE12 = .
$LBB15 = .
$LBB16 = .
	.loc 2 23 9 discriminator 3
	addiu	$2,$12,48
$LBE16 = .
$LBE15 = .
	.loc 1 19 39 discriminator 3
	sll	$7,$10,$12
$LBB18 = .
$LBB17 = .
	.loc 2 23 9 discriminator 3
	sw	$2,1020($0)
$LBE17 = .
$LBE18 = .
	.loc 1 19 20 discriminator 3
	move	$5,$0
	addiu	$7,$7,-1
	.loc 1 18 9 discriminator 3
	sw	$11,1020($0)
	.loc 1 19 20 discriminator 3
	move	$6,$0
	move	$4,$0
	jal	solve
$LBB19 = .
$LBB14 = .
	.loc 2 18 9 discriminator 3
	move	$5,$0
$L10:
	.loc 2 20 35
	divu	$0,$2,$8
	.loc 2 20 21
	addiu	$5,$5,1
	addu	$3,$9,$5
	.loc 2 21 12
	sltu	$6,$2,10
	.loc 2 20 35
	mfhi	$4
	.loc 2 20 31
	addiu	$2,$4,48
	.loc 2 20 25
	sb	$2,-1($3)
	.loc 2 21 14
	mflo	$2
	.loc 2 21 12
	beq	$6,$0,$L10
	move	$2,$3
$L11:
	.loc 2 23 9
	lb	$3,-1($2)
	.loc 2 22 12
	addiu	$2,$2,-1
	.loc 2 23 9
	sw	$3,1020($0)
	.loc 2 22 12
	bne	$9,$2,$L11
$LBE14 = .
$LBE19 = .
	.loc 1 16 30
	addiu	$12,$12,1
	.loc 1 16 23
	li	$2,8			# 0x8
	.loc 1 20 9
	sw	$8,1020($0)
	.loc 1 16 23
	bne	$12,$2,$L12
$LBE20 = .
	.loc 1 23 1
	lw	$31,36($sp)
	move	$2,$0
	addiu	$sp,$sp,40
	.cfi_restore 31
	.cfi_def_cfa_offset 0
	jr	$31
	.end	main
	.cfi_endproc
$LFE4:
	.size	main, .-main
	.text
$Letext0:
	.section	.debug_info,"",@progbits
$Ldebug_info0:
	.4byte	0x71
	.2byte	0x5
	.byte	0x1
	.byte	0x4
	.4byte	$Ldebug_abbrev0
	.uleb128 0x2
	.4byte	$LASF0
	.byte	0x1d
	.4byte	$LASF1
	.4byte	$LASF2
	.4byte	$LLRL2
	.4byte	0
	.4byte	$Ldebug_line0
	.uleb128 0x3
	.4byte	$LASF3
	.byte	0x1
	.byte	0xf
	.byte	0x5
	.4byte	$LFB4
	.4byte	$LFE4-$LFB4
	.uleb128 0x1
	.byte	0x9c
	.4byte	0x59
	.uleb128 0x1
	.4byte	0x6b
	.4byte	$LBB12
	.4byte	$LLRL0
	.byte	0x13
	.uleb128 0x1
	.4byte	0x6b
	.4byte	$LBB15
	.4byte	$LLRL1
	.byte	0x11
	.byte	0
	.uleb128 0x4
	.4byte	$LASF4
	.byte	0x1
	.byte	0x4
	.byte	0xc
	.4byte	$LFB3
	.4byte	$LFE3-$LFB3
	.uleb128 0x1
	.byte	0x9c
	.uleb128 0x5
	.4byte	$LASF5
	.byte	0x2
	.byte	0x10
	.byte	0xd
	.byte	0x1
	.byte	0
	.section	.debug_abbrev,"",@progbits
$Ldebug_abbrev0:
	.uleb128 0x1
	.uleb128 0x1d
	.byte	0
	.uleb128 0x31
	.uleb128 0x13
	.uleb128 0x52
	.uleb128 0x1
	.uleb128 0x55
	.uleb128 0x17
	.uleb128 0x58
	.uleb128 0x21
	.sleb128 1
	.uleb128 0x59
	.uleb128 0xb
	.uleb128 0x57
	.uleb128 0x21
	.sleb128 9
	.byte	0
	.byte	0
	.uleb128 0x2
	.uleb128 0x11
	.byte	0x1
	.uleb128 0x25
	.uleb128 0xe
	.uleb128 0x13
	.uleb128 0xb
	.uleb128 0x3
	.uleb128 0xe
	.uleb128 0x1b
	.uleb128 0xe
	.uleb128 0x55
	.uleb128 0x17
	.uleb128 0x11
	.uleb128 0x1
	.uleb128 0x10
	.uleb128 0x17
	.byte	0
	.byte	0
	.uleb128 0x3
	.uleb128 0x2e
	.byte	0x1
	.uleb128 0x3f
	.uleb128 0x19
	.uleb128 0x3
	.uleb128 0xe
	.uleb128 0x3a
	.uleb128 0xb
	.uleb128 0x3b
	.uleb128 0xb
	.uleb128 0x39
	.uleb128 0xb
	.uleb128 0x11
	.uleb128 0x1
	.uleb128 0x12
	.uleb128 0x6
	.uleb128 0x40
	.uleb128 0x18
	.uleb128 0x7c
	.uleb128 0x19
	.uleb128 0x1
	.uleb128 0x13
	.byte	0
	.byte	0
	.uleb128 0x4
	.uleb128 0x2e
	.byte	0
	.uleb128 0x3
	.uleb128 0xe
	.uleb128 0x3a
	.uleb128 0xb
	.uleb128 0x3b
	.uleb128 0xb
	.uleb128 0x39
	.uleb128 0xb
	.uleb128 0x11
	.uleb128 0x1
	.uleb128 0x12
	.uleb128 0x6
	.uleb128 0x40
	.uleb128 0x18
	.uleb128 0x7c
	.uleb128 0x19
	.byte	0
	.byte	0
	.uleb128 0x5
	.uleb128 0x2e
	.byte	0
	.uleb128 0x3
	.uleb128 0xe
	.uleb128 0x3a
	.uleb128 0xb
	.uleb128 0x3b
	.uleb128 0xb
	.uleb128 0x39
	.uleb128 0xb
	.uleb128 0x20
	.uleb128 0xb
	.byte	0
	.byte	0
	.byte	0
	.section	.debug_aranges,"",@progbits
	.4byte	0x24
	.2byte	0x2
	.4byte	$Ldebug_info0
	.byte	0x4
	.byte	0
	.2byte	0
	.2byte	0
	.4byte	$Ltext0
	.4byte	$Letext0-$Ltext0
	.4byte	$LFB4
	.4byte	$LFE4-$LFB4
	.4byte	0
	.4byte	0
	.section	.debug_rnglists,"",@progbits
$Ldebug_ranges0:
	.4byte	$Ldebug_ranges3-$Ldebug_ranges2
$Ldebug_ranges2:
	.2byte	0x5
	.byte	0x4
	.byte	0
	.4byte	0
$LLRL0:
	.byte	0x5
	.4byte	$LBB12
	.byte	0x4
	.uleb128 $LBB12-$LBB12
	.uleb128 $LBE12-$LBB12
	.byte	0x4
	.uleb128 $LBB19-$LBB12
	.uleb128 $LBE19-$LBB12
	.byte	0
$LLRL1:
	.byte	0x5
	.4byte	$LBB15
	.byte	0x4
	.uleb128 $LBB15-$LBB15
	.uleb128 $LBE15-$LBB15
	.byte	0x4
	.uleb128 $LBB18-$LBB15
	.uleb128 $LBE18-$LBB15
	.byte	0
$LLRL2:
	.byte	0x7
	.4byte	$Ltext0
	.uleb128 $Letext0-$Ltext0
	.byte	0x7
	.4byte	$LFB4
	.uleb128 $LFE4-$LFB4
	.byte	0
$Ldebug_ranges3:
	.section	.debug_line,"",@progbits
$Ldebug_line0:
	.section	.debug_str,"MS",@progbits,1
$LASF5:
	.ascii	"put_number\000"
$LASF2:
	.ascii	"/work/h/cc/crates/test_cc_cases/data/c\000"
$LASF1:
	.ascii	"queens.c\000"
$LASF4:
	.ascii	"solve\000"
$LASF0:
	.ascii	"GNU C17 12.2.0 -G 0 -meb -march=mips1 -mabi=32 -mfp32 -m"
	.ascii	"soft-float -mno-abicalls -mno-explicit-relocs -mno-split"
	.ascii	"-addresses -mno-check-zero-division -mllsc -mno-lxc1-sxc"
	.ascii	"1 -mips1 -mno-shared -g1 -O2 -fno-pic -fno-delayed-branc"
	.ascii	"h -ffreestanding -fno-builtin -fno-optimize-sibling-call"
	.ascii	"s -fno-asynchronous-unwind-tables -fno-stack-protector -"
	.ascii	"fno-reorder-blocks-and-partition -fno-ipa-icf -ffixed-22"
	.ascii	" -ffixed-23 -ffixed-24 -ffixed-25\000"
$LASF3:
	.ascii	"main\000"
	.ident	"GCC: (Debian 12.2.0-14) 12.2.0"
	.section	.note.GNU-stack,"",@progbits
