 # Names of places in data, floating-point numbers, and commas as characters. The console is worked out by hand; GNU's assembler
 # and qemu-mips give the same.
	.text
	.globl	main
main:
	lw	$4,second
	sw	$4,1020($0)
	la	$8,third
	lw	$4,0($8)
	sw	$4,1020($0)
	lw	$4,names		# a word of data that has the address of a place
	lw	$4,0($4)
	sw	$4,1020($0)
	li	$4,','
	sw	$4,1020($0)
	addiu	$4,$0,','
	sw	$4,1020($0)
	lb	$4,commas+1
	sw	$4,1020($0)
	lw	$4,single		# 1e10 is 0x501502f9
	srl	$4,$4,24
	sw	$4,1020($0)
	lw	$4,single+4		# 0.1 is 0x3dcccccd
	srl	$4,$4,24
	sw	$4,1020($0)
	la	$8,double		# 1e10 is 0x4202a05f20000000
	lw	$4,8($8)
	srl	$9,$4,24
	sw	$9,1020($0)
	andi	$4,$4,255
	sw	$4,1020($0)
	lb	$4,12($8)
	sw	$4,1020($0)
	li	$4,10
	sw	$4,1020($0)
	jr	$31
	.data
	.align	2
first:	.word	65,66,67
second = first+4
	.set	third,first+8
names:	.word	second
commas:	.byte	'a', ',' , 'b'
single:	.float	1e10, 0.1
	.align	3
double:	.byte	1
	.double	1e10
