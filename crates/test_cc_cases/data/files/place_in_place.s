	.text
	.globl	main
main:
	lw	$2,third
	jr	$31
	.data
first:	.word	1,2,3
second = first+4
third = second+4
