	.text
	.globl	main
main:
	la	$2,inside
	jr	$31
inside = main+4
