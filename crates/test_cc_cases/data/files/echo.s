	.section .mdebug.abi32
	.previous
	.nan	legacy
	.module	softfloat
	.module	nooddspreg
	.module	arch=mips1
	.text
$Ltext0:
	.cfi_sections	.debug_frame
	.file 1 "echo.c"
	.section	.text.startup,"ax",@progbits
	.align	2
	.globl	main
$LFB3 = .
	.loc 1 6 16
	.cfi_startproc
	.set	nomips16
	.set	nomicromips
	.ent	main
	.type	main, @function
main:
	.frame	$sp,0,$31		# vars= 0, regs= 0/0, args= 0, gp= 0
	.mask	0x00000000,0
	.fmask	0x00000000,0
	.loc 1 11 27
	la	$4,word
	.loc 1 10 21
	li	$7,80			# 0x50
$L8:
	.loc 1 9 11
	lw	$5,1016($0)
	#nop
	.loc 1 10 12
	slt	$2,$5,33
	bne	$2,$0,$L3
	.loc 1 11 27
	sb	$5,0($4)
	.loc 1 9 11
	lw	$5,1016($0)
	.loc 1 11 23
	li	$2,1			# 0x1
	.loc 1 10 12
	slt	$3,$5,33
	.loc 1 11 27
	addu	$6,$4,$2
	.loc 1 10 12
	bne	$3,$0,$L4
$L5:
	.loc 1 10 21 discriminator 1
	beq	$2,$7,$L4
	.loc 1 11 27
	sb	$5,0($6)
	.loc 1 9 11
	lw	$5,1016($0)
	.loc 1 11 23
	addiu	$2,$2,1
	.loc 1 10 12
	slt	$3,$5,33
	.loc 1 11 27
	addu	$6,$4,$2
	.loc 1 10 12
	beq	$3,$0,$L5
$L4:
	addu	$2,$4,$2
$L6:
	.loc 1 14 17
	lb	$3,-1($2)
	.loc 1 13 20
	addiu	$2,$2,-1
	.loc 1 14 17
	sw	$3,1020($0)
	.loc 1 13 20
	bne	$4,$2,$L6
$L3:
	.loc 1 15 16
	bltz	$5,$L10
	.loc 1 16 17
	sw	$5,1020($0)
	b	$L8
$L10:
	.loc 1 20 1
	move	$2,$0
	jr	$31
	.end	main
	.cfi_endproc
$LFE3:
	.size	main, .-main
	.local	word
	.comm	word,80,4
	.text
$Letext0:
	.section	.debug_info,"",@progbits
$Ldebug_info0:
	.4byte	0x35
	.2byte	0x5
	.byte	0x1
	.byte	0x4
	.4byte	$Ldebug_abbrev0
	.uleb128 0x1
	.4byte	$LASF0
	.byte	0x1d
	.4byte	$LASF1
	.4byte	$LASF2
	.4byte	$LLRL0
	.4byte	0
	.4byte	$Ldebug_line0
	.uleb128 0x2
	.4byte	$LASF3
	.byte	0x1
	.byte	0x6
	.byte	0x5
	.4byte	$LFB3
	.4byte	$LFE3-$LFB3
	.uleb128 0x1
	.byte	0x9c
	.byte	0
	.section	.debug_abbrev,"",@progbits
$Ldebug_abbrev0:
	.uleb128 0x1
	.uleb128 0x11
	.byte	0x1
	.uleb128 0x25
	.uleb128 0xe
	.uleb128 0x13
	.uleb128 0xb
	.uleb128 0x3
	.uleb128 0xe
	.uleb128 0x1b
	.uleb128 0xe
	.uleb128 0x55
	.uleb128 0x17
	.uleb128 0x11
	.uleb128 0x1
	.uleb128 0x10
	.uleb128 0x17
	.byte	0
	.byte	0
	.uleb128 0x2
	.uleb128 0x2e
	.byte	0
	.uleb128 0x3f
	.uleb128 0x19
	.uleb128 0x3
	.uleb128 0xe
	.uleb128 0x3a
	.uleb128 0xb
	.uleb128 0x3b
	.uleb128 0xb
	.uleb128 0x39
	.uleb128 0xb
	.uleb128 0x11
	.uleb128 0x1
	.uleb128 0x12
	.uleb128 0x6
	.uleb128 0x40
	.uleb128 0x18
	.uleb128 0x7a
	.uleb128 0x19
	.byte	0
	.byte	0
	.byte	0
	.section	.debug_aranges,"",@progbits
	.4byte	0x1c
	.2byte	0x2
	.4byte	$Ldebug_info0
	.byte	0x4
	.byte	0
	.2byte	0
	.2byte	0
	.4byte	$LFB3
	.4byte	$LFE3-$LFB3
	.4byte	0
	.4byte	0
	.section	.debug_rnglists,"",@progbits
$Ldebug_ranges0:
	.4byte	$Ldebug_ranges3-$Ldebug_ranges2
$Ldebug_ranges2:
	.2byte	0x5
	.byte	0x4
	.byte	0
	.4byte	0
$LLRL0:
	.byte	0x7
	.4byte	$LFB3
	.uleb128 $LFE3-$LFB3
	.byte	0
$Ldebug_ranges3:
	.section	.debug_line,"",@progbits
$Ldebug_line0:
	.section	.debug_str,"MS",@progbits,1
$LASF2:
	.ascii	"/work/h/cc/crates/test_cc_cases/data/c\000"
$LASF1:
	.ascii	"echo.c\000"
$LASF0:
	.ascii	"GNU C17 12.2.0 -G 0 -meb -march=mips1 -mabi=32 -mfp32 -m"
	.ascii	"soft-float -mno-abicalls -mno-explicit-relocs -mno-split"
	.ascii	"-addresses -mno-check-zero-division -mllsc -mno-lxc1-sxc"
	.ascii	"1 -mips1 -mno-shared -g1 -O2 -fno-pic -fno-delayed-branc"
	.ascii	"h -ffreestanding -fno-builtin -fno-optimize-sibling-call"
	.ascii	"s -fno-asynchronous-unwind-tables -fno-stack-protector -"
	.ascii	"fno-reorder-blocks-and-partition -fno-ipa-icf -ffixed-22"
	.ascii	" -ffixed-23 -ffixed-24 -ffixed-25\000"
$LASF3:
	.ascii	"main\000"
	.ident	"GCC: (Debian 12.2.0-14) 12.2.0"
	.section	.note.GNU-stack,"",@progbits
