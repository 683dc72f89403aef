 # A word at any address after a jump by a table: register 2 had the code address, of which lwl keeps a part for a moment.
	.text
	.globl	main
main:
	li	$2,1
	sltu	$3,$2,3
	beq	$3,$0,$L2
	sll	$2,$2,2
	la	$3,$L4
	addu	$3,$3,$2
	lw	$2,0($3)
	jr	$2
$L5:
	li	$4,63
	sw	$4,1020($0)
	jr	$31
$L6:
	la	$4,letters
	lwl	$2,1($4)
	lwr	$2,4($4)
	la	$5,room
	swl	$2,3($5)
	swr	$2,6($5)
	lb	$4,3($5)
	sw	$4,1020($0)
	lb	$4,4($5)
	sw	$4,1020($0)
	lb	$4,5($5)
	sw	$4,1020($0)
	lb	$4,6($5)
	sw	$4,1020($0)
$L2:
	li	$4,10
	sw	$4,1020($0)
	jr	$31
	.rdata
	.align	2
$L4:
	.word	$L5
	.word	$L6
	.word	$L2
	.data
	.align	2
letters: .ascii	"ABCDEFGH"
	.align	2
room:	.space	8
