	.section .mdebug.abi32
	.previous
	.nan	legacy
	.module	softfloat
	.module	nooddspreg
	.module	arch=mips1
	.text
$Ltext0:
	.cfi_sections	.debug_frame
	.file 1 "parts.c"
	.align	2
$LFB6 = .
	.loc 1 24 39
	.cfi_startproc
	.set	nomips16
	.set	nomicromips
	.ent	copy.constprop.0
	.type	copy.constprop.0, @function
copy.constprop.0:
	.frame	$sp,0,$31		# vars= 0, regs= 0/0, args= 0, gp= 0
	.mask	0x00000000,0
	.fmask	0x00000000,0
	.loc 1 25 9
	lw	$2,one
	lw	$3,one+4
	swl	$2,0($4)
	swr	$2,3($4)
	la	$2,one+8
	swl	$3,4($4)
	lbu	$7,0($2)
	lbu	$6,1($2)
	lbu	$5,2($2)
	.loc 1 26 11
	li	$2,16908288			# 0x1020000
	.loc 1 25 9
	swr	$3,7($4)
	.loc 1 26 11
	addiu	$2,$2,770
	.loc 1 25 9
	sb	$7,8($4)
	sb	$6,9($4)
	sb	$5,10($4)
	.loc 1 26 11
	swl	$2,1($4)
	swr	$2,4($4)
	.loc 1 27 11
	li	$3,-1			# 0xffffffffffffffff
	.loc 1 28 11
	li	$2,1985216512			# 0x76540000
	.loc 1 27 11
	sb	$3,5($4)
	.loc 1 28 11
	ori	$2,$2,0xcdef
	.loc 1 27 11
	li	$3,-8			# 0xfffffffffffffff8
	sb	$3,6($4)
	.loc 1 28 11
	swl	$2,7($4)
	swr	$2,10($4)
	.loc 1 29 1
	jr	$31
	.end	copy.constprop.0
	.cfi_endproc
$LFE6:
	.size	copy.constprop.0, .-copy.constprop.0
	.align	2
$LFB7 = .
	.loc 1 16 39
	.cfi_startproc
	.set	nomips16
	.set	nomicromips
	.ent	turn.constprop.0
	.type	turn.constprop.0, @function
turn.constprop.0:
	.frame	$sp,0,$31		# vars= 0, regs= 0/0, args= 0, gp= 0
	.mask	0x00000000,0
	.fmask	0x00000000,0
	la	$2,text
	la	$3,text+9
	la	$6,text+5
$L4:
$LBB30 = .
$LBB31 = .
	.loc 1 19 23
	lb	$5,0($3)
	.loc 1 18 14
	lb	$4,0($2)
	.loc 1 19 17
	sb	$5,0($2)
$LBE31 = .
	.loc 1 17 23
	addiu	$2,$2,1
$LBB32 = .
	.loc 1 20 29
	sb	$4,0($3)
$LBE32 = .
	.loc 1 17 23
	addiu	$3,$3,-1
	bne	$2,$6,$L4
$LBE30 = .
	.loc 1 22 1
	jr	$31
	.end	turn.constprop.0
	.cfi_endproc
$LFE7:
	.size	turn.constprop.0, .-turn.constprop.0
	.section	.rodata.str1.4,"aMS",@progbits,1
	.align	2
$LC0:
	.ascii	"0123456789abcdef\000"
	.section	.text.startup,"ax",@progbits
	.align	2
	.globl	main
$LFB5 = .
	.loc 1 31 16
	.cfi_startproc
	.set	nomips16
	.set	nomicromips
	.ent	main
	.type	main, @function
main:
	.frame	$sp,64,$31		# vars= 40, regs= 1/0, args= 16, gp= 0
	.mask	0x80000000,-4
	.fmask	0x00000000,0
	addiu	$sp,$sp,-64
	.cfi_def_cfa_offset 64
	sw	$31,60($sp)
	.cfi_offset 31, -4
	.loc 1 34 5
	jal	turn.constprop.0
$LBB33 = .
$LBB34 = .
	.file 2 "io.h"
	.loc 2 12 12
	la	$2,text
	lb	$3,0($2)
	#nop
	beq	$3,$0,$L7
$L8:
	.loc 2 13 9
	addiu	$2,$2,1
	sw	$3,1020($0)
	.loc 2 12 12
	lb	$3,0($2)
	#nop
	bne	$3,$0,$L8
$L7:
$LBE34 = .
$LBE33 = .
	.loc 1 36 5
	li	$2,10			# 0xa
	.loc 1 37 5
	addiu	$4,$sp,27
	.loc 1 36 5
	sw	$2,1020($0)
	.loc 1 37 5
	jal	copy.constprop.0
	.loc 1 38 5
	lb	$6,27($sp)
$LBB35 = .
$LBB36 = .
	.loc 2 27 14
	li	$3,28			# 0x1c
	la	$4,$LC0
	.loc 2 27 24
	li	$5,-4			# 0xfffffffffffffffc
$L9:
	.loc 2 28 9
	srl	$2,$6,$3
	andi	$2,$2,0xf
	addu	$2,$4,$2
	lb	$2,0($2)
	.loc 2 27 32
	addiu	$3,$3,-4
	.loc 2 28 9
	sw	$2,1020($0)
	.loc 2 27 24
	bne	$3,$5,$L9
$LBE36 = .
$LBE35 = .
	.loc 1 39 5
	lw	$6,28($sp)
$LBB37 = .
$LBB38 = .
	.loc 2 27 14
	li	$3,28			# 0x1c
	.loc 2 27 24
	li	$5,-4			# 0xfffffffffffffffc
$L10:
	.loc 2 28 9
	srl	$2,$6,$3
	andi	$2,$2,0xf
	addu	$2,$4,$2
	lb	$2,0($2)
	.loc 2 27 32
	addiu	$3,$3,-4
	.loc 2 28 9
	sw	$2,1020($0)
	.loc 2 27 24
	bne	$3,$5,$L10
$LBE38 = .
$LBE37 = .
	.loc 1 40 5
	lh	$6,32($sp)
$LBB39 = .
$LBB40 = .
	.loc 2 27 14
	li	$3,28			# 0x1c
	.loc 2 27 24
	li	$5,-4			# 0xfffffffffffffffc
$L11:
	.loc 2 28 9
	srl	$2,$6,$3
	andi	$2,$2,0xf
	addu	$2,$4,$2
	lb	$2,0($2)
	.loc 2 27 32
	addiu	$3,$3,-4
	.loc 2 28 9
	sw	$2,1020($0)
	.loc 2 27 24
	bne	$3,$5,$L11
$LBE40 = .
$LBE39 = .
	.loc 1 41 5
	lwl	$5,34($sp)
$LBB41 = .
$LBB42 = .
	.loc 2 27 14
	li	$3,28			# 0x1c
$LBE42 = .
$LBE41 = .
	.loc 1 41 5
	lwr	$5,37($sp)
$LBB44 = .
$LBB43 = .
	.loc 2 27 24
	li	$6,-4			# 0xfffffffffffffffc
$L12:
	.loc 2 28 9
	srl	$2,$5,$3
	andi	$2,$2,0xf
	addu	$2,$4,$2
	lb	$2,0($2)
	.loc 2 27 32
	addiu	$3,$3,-4
	.loc 2 28 9
	sw	$2,1020($0)
	.loc 2 27 24
	bne	$3,$6,$L12
$LBE43 = .
$LBE44 = .
	.loc 1 42 5
	li	$2,10			# 0xa
	sw	$2,1020($0)
	la	$3,signs
	la	$7,signs+9
	.loc 1 33 9
	move	$2,$0
$L13:
$LBB45 = .
	.loc 1 44 30 discriminator 3
	lb	$5,0($3)
	.loc 1 44 17 discriminator 3
	sll	$6,$2,1
	addu	$2,$6,$2
	.loc 1 43 23 discriminator 3
	addiu	$3,$3,1
	.loc 1 44 13 discriminator 3
	addu	$2,$5,$2
	.loc 1 43 23 discriminator 3
	bne	$7,$3,$L13
$LBE45 = .
$LBB46 = .
$LBB47 = .
	.loc 2 27 14
	li	$5,28			# 0x1c
	.loc 2 27 24
	li	$6,-4			# 0xfffffffffffffffc
$L14:
	.loc 2 28 9
	srl	$3,$2,$5
	andi	$3,$3,0xf
	addu	$3,$4,$3
	lb	$3,0($3)
	.loc 2 27 32
	addiu	$5,$5,-4
	.loc 2 28 9
	sw	$3,1020($0)
	.loc 2 27 24
	bne	$5,$6,$L14
	la	$7,halves
	la	$8,halves+10
$LBE47 = .
$LBE46 = .
$LBB48 = .
$LBB49 = .
$LBB50 = .
	li	$6,-4			# 0xfffffffffffffffc
$L16:
$LBE50 = .
$LBE49 = .
	.loc 1 47 35 discriminator 3
	lhu	$2,0($7)
$LBB53 = .
$LBB51 = .
	.loc 2 27 14 discriminator 3
	li	$3,28			# 0x1c
$LBE51 = .
$LBE53 = .
	.loc 1 47 35 discriminator 3
	sll	$5,$2,1
	addu	$5,$5,$2
	addiu	$5,$5,1
	andi	$5,$5,0xffff
	.loc 1 47 19 discriminator 3
	sh	$5,0($7)
	.loc 1 48 9 discriminator 3
	sll	$5,$5,16
	sra	$5,$5,16
$L15:
$LBB54 = .
$LBB52 = .
	.loc 2 28 9
	srl	$2,$5,$3
	andi	$2,$2,0xf
	addu	$2,$4,$2
	lb	$2,0($2)
	.loc 2 27 32
	addiu	$3,$3,-4
	.loc 2 28 9
	sw	$2,1020($0)
	.loc 2 27 24
	bne	$3,$6,$L15
$LBE52 = .
$LBE54 = .
	.loc 1 46 23 discriminator 3
	addiu	$7,$7,2
	bne	$8,$7,$L16
$LBE48 = .
$LBB55 = .
	.loc 1 50 25
	addiu	$7,$sp,27
	addiu	$8,$sp,38
$LBB56 = .
$LBB57 = .
	.loc 2 27 24
	li	$6,-4			# 0xfffffffffffffffc
$L18:
$LBE57 = .
$LBE56 = .
	.loc 1 51 12 discriminator 3
	lbu	$5,0($7)
$LBB60 = .
$LBB58 = .
	.loc 2 27 14 discriminator 3
	li	$3,28			# 0x1c
$LBE58 = .
$LBE60 = .
	.loc 1 51 12 discriminator 3
	addiu	$5,$5,7
	andi	$5,$5,0x00ff
	sb	$5,0($7)
$L17:
$LBB61 = .
$LBB59 = .
	.loc 2 28 9
	srl	$2,$5,$3
	andi	$2,$2,0xf
	addu	$2,$4,$2
	lb	$2,0($2)
	.loc 2 27 32
	addiu	$3,$3,-4
	.loc 2 28 9
	sw	$2,1020($0)
	.loc 2 27 24
	bne	$3,$6,$L17
$LBE59 = .
$LBE61 = .
	.loc 1 50 94 discriminator 3
	addiu	$7,$7,1
	.loc 1 50 61 discriminator 3
	bne	$7,$8,$L18
$LBE55 = .
	.loc 1 56 1
	lw	$31,60($sp)
	.loc 1 54 5
	li	$2,10			# 0xa
	sw	$2,1020($0)
	.loc 1 56 1
	move	$2,$0
	addiu	$sp,$sp,64
	.cfi_restore 31
	.cfi_def_cfa_offset 0
	jr	$31
	.end	main
	.cfi_endproc
$LFE5:
	.size	main, .-main
	.data
	.align	2
	.type	text, @object
	.size	text, 11
text:
	.ascii	"bytes move\000"
	.align	2
	.type	halves, @object
	.size	halves, 10
halves:
	.half	1
	.half	-1
	.half	256
	.half	-32768
	.half	7
	.rdata
	.align	2
	.type	signs, @object
	.size	signs, 9
signs:
	.ascii	"\001\376\003\374\005\372\007\370\011"
	.align	2
	.type	one, @object
	.size	one, 11
one:
	.byte	-1
	.4byte	-2
	.2byte	-3
	.4byte	-1985229329
	.text
$Letext0:
	.section	.debug_info,"",@progbits
$Ldebug_info0:
	.4byte	0xeb
	.2byte	0x5
	.byte	0x1
	.byte	0x4
	.4byte	$Ldebug_abbrev0
	.uleb128 0x5
	.4byte	$LASF4
	.byte	0x1d
	.4byte	$LASF5
	.4byte	$LASF6
	.4byte	$LLRL3
	.4byte	0
	.4byte	$Ldebug_line0
	.uleb128 0x6
	.4byte	$LASF7
	.byte	0x1
	.byte	0x1f
	.byte	0x5
	.4byte	$LFB5
	.4byte	$LFE5-$LFB5
	.uleb128 0x1
	.byte	0x9c
	.4byte	0xb0
	.uleb128 0x1
	.4byte	0xc8
	.4byte	$LBB33
	.4byte	$LBE33-$LBB33
	.byte	0x23
	.uleb128 0x1
	.4byte	0xc0
	.4byte	$LBB35
	.4byte	$LBE35-$LBB35
	.byte	0x26
	.uleb128 0x1
	.4byte	0xc0
	.4byte	$LBB37
	.4byte	$LBE37-$LBB37
	.byte	0x27
	.uleb128 0x1
	.4byte	0xc0
	.4byte	$LBB39
	.4byte	$LBE39-$LBB39
	.byte	0x28
	.uleb128 0x3
	.4byte	0xc0
	.4byte	$LBB41
	.4byte	$LLRL0
	.byte	0x29
	.byte	0x5
	.uleb128 0x1
	.4byte	0xc0
	.4byte	$LBB46
	.4byte	$LBE46-$LBB46
	.byte	0x2d
	.uleb128 0x3
	.4byte	0xc0
	.4byte	$LBB49
	.4byte	$LLRL1
	.byte	0x30
	.byte	0x9
	.uleb128 0x3
	.4byte	0xc0
	.4byte	$LBB56
	.4byte	$LLRL2
	.byte	0x34
	.byte	0x9
	.byte	0
	.uleb128 0x2
	.4byte	$LASF0
	.byte	0x1
	.byte	0x18
	.byte	0x27
	.uleb128 0x2
	.4byte	$LASF1
	.byte	0x1
	.byte	0x10
	.byte	0x27
	.uleb128 0x2
	.4byte	$LASF2
	.byte	0x2
	.byte	0x1a
	.byte	0xd
	.uleb128 0x2
	.4byte	$LASF3
	.byte	0x2
	.byte	0xb
	.byte	0xd
	.uleb128 0x4
	.4byte	0xb0
	.4byte	$LFB6
	.4byte	$LFE6-$LFB6
	.uleb128 0x1
	.byte	0x9c
	.uleb128 0x4
	.4byte	0xb8
	.4byte	$LFB7
	.4byte	$LFE7-$LFB7
	.uleb128 0x1
	.byte	0x9c
	.byte	0
	.section	.debug_abbrev,"",@progbits
$Ldebug_abbrev0:
	.uleb128 0x1
	.uleb128 0x1d
	.byte	0
	.uleb128 0x31
	.uleb128 0x13
	.uleb128 0x11
	.uleb128 0x1
	.uleb128 0x12
	.uleb128 0x6
	.uleb128 0x58
	.uleb128 0x21
	.sleb128 1
	.uleb128 0x59
	.uleb128 0xb
	.uleb128 0x57
	.uleb128 0x21
	.sleb128 5
	.byte	0
	.byte	0
	.uleb128 0x2
	.uleb128 0x2e
	.byte	0
	.uleb128 0x3
	.uleb128 0xe
	.uleb128 0x3a
	.uleb128 0xb
	.uleb128 0x3b
	.uleb128 0xb
	.uleb128 0x39
	.uleb128 0xb
	.uleb128 0x20
	.uleb128 0x21
	.sleb128 1
	.byte	0
	.byte	0
	.uleb128 0x3
	.uleb128 0x1d
	.byte	0
	.uleb128 0x31
	.uleb128 0x13
	.uleb128 0x52
	.uleb128 0x1
	.uleb128 0x55
	.uleb128 0x17
	.uleb128 0x58
	.uleb128 0x21
	.sleb128 1
	.uleb128 0x59
	.uleb128 0xb
	.uleb128 0x57
	.uleb128 0xb
	.byte	0
	.byte	0
	.uleb128 0x4
	.uleb128 0x2e
	.byte	0
	.uleb128 0x31
	.uleb128 0x13
	.uleb128 0x11
	.uleb128 0x1
	.uleb128 0x12
	.uleb128 0x6
	.uleb128 0x40
	.uleb128 0x18
	.uleb128 0x7a
	.uleb128 0x19
	.byte	0
	.byte	0
	.uleb128 0x5
	.uleb128 0x11
	.byte	0x1
	.uleb128 0x25
	.uleb128 0xe
	.uleb128 0x13
	.uleb128 0xb
	.uleb128 0x3
	.uleb128 0xe
	.uleb128 0x1b
	.uleb128 0xe
	.uleb128 0x55
	.uleb128 0x17
	.uleb128 0x11
	.uleb128 0x1
	.uleb128 0x10
	.uleb128 0x17
	.byte	0
	.byte	0
	.uleb128 0x6
	.uleb128 0x2e
	.byte	0x1
	.uleb128 0x3f
	.uleb128 0x19
	.uleb128 0x3
	.uleb128 0xe
	.uleb128 0x3a
	.uleb128 0xb
	.uleb128 0x3b
	.uleb128 0xb
	.uleb128 0x39
	.uleb128 0xb
	.uleb128 0x11
	.uleb128 0x1
	.uleb128 0x12
	.uleb128 0x6
	.uleb128 0x40
	.uleb128 0x18
	.uleb128 0x7c
	.uleb128 0x19
	.uleb128 0x1
	.uleb128 0x13
	.byte	0
	.byte	0
	.byte	0
	.section	.debug_aranges,"",@progbits
	.4byte	0x24
	.2byte	0x2
	.4byte	$Ldebug_info0
	.byte	0x4
	.byte	0
	.2byte	0
	.2byte	0
	.4byte	$Ltext0
	.4byte	$Letext0-$Ltext0
	.4byte	$LFB5
	.4byte	$LFE5-$LFB5
	.4byte	0
	.4byte	0
	.section	.debug_rnglists,"",@progbits
$Ldebug_ranges0:
	.4byte	$Ldebug_ranges3-$Ldebug_ranges2
$Ldebug_ranges2:
	.2byte	0x5
	.byte	0x4
	.byte	0
	.4byte	0
$LLRL0:
	.byte	0x5
	.4byte	$LBB41
	.byte	0x4
	.uleb128 $LBB41-$LBB41
	.uleb128 $LBE41-$LBB41
	.byte	0x4
	.uleb128 $LBB44-$LBB41
	.uleb128 $LBE44-$LBB41
	.byte	0
$LLRL1:
	.byte	0x5
	.4byte	$LBB49
	.byte	0x4
	.uleb128 $LBB49-$LBB49
	.uleb128 $LBE49-$LBB49
	.byte	0x4
	.uleb128 $LBB53-$LBB49
	.uleb128 $LBE53-$LBB49
	.byte	0x4
	.uleb128 $LBB54-$LBB49
	.uleb128 $LBE54-$LBB49
	.byte	0
$LLRL2:
	.byte	0x5
	.4byte	$LBB56
	.byte	0x4
	.uleb128 $LBB56-$LBB56
	.uleb128 $LBE56-$LBB56
	.byte	0x4
	.uleb128 $LBB60-$LBB56
	.uleb128 $LBE60-$LBB56
	.byte	0x4
	.uleb128 $LBB61-$LBB56
	.uleb128 $LBE61-$LBB56
	.byte	0
$LLRL3:
	.byte	0x7
	.4byte	$Ltext0
	.uleb128 $Letext0-$Ltext0
	.byte	0x7
	.4byte	$LFB5
	.uleb128 $LFE5-$LFB5
	.byte	0
$Ldebug_ranges3:
	.section	.debug_line,"",@progbits
$Ldebug_line0:
	.section	.debug_str,"MS",@progbits,1
$LASF1:
	.ascii	"turn\000"
$LASF6:
	.ascii	"/work/h/cc/crates/test_cc_cases/data/c\000"
$LASF2:
	.ascii	"put_hex\000"
$LASF3:
	.ascii	"put_text\000"
$LASF5:
	.ascii	"parts.c\000"
$LASF4:
	.ascii	"GNU C17 12.2.0 -G 0 -meb -march=mips1 -mabi=32 -mfp32 -m"
	.ascii	"soft-float -mno-abicalls -mno-explicit-relocs -mno-split"
	.ascii	"-addresses -mno-check-zero-division -mllsc -mno-lxc1-sxc"
	.ascii	"1 -mips1 -mno-shared -g1 -O2 -fno-pic -fno-delayed-branc"
	.ascii	"h -ffreestanding -fno-builtin -fno-optimize-sibling-call"
	.ascii	"s -fno-asynchronous-unwind-tables -fno-stack-protector -"
	.ascii	"fno-reorder-blocks-and-partition -fno-ipa-icf -ffixed-22"
	.ascii	" -ffixed-23 -ffixed-24 -ffixed-25\000"
$LASF7:
	.ascii	"main\000"
$LASF0:
	.ascii	"copy\000"
	.ident	"GCC: (Debian 12.2.0-14) 12.2.0"
	.section	.note.GNU-stack,"",@progbits
