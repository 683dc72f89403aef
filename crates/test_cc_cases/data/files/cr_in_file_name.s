	.file 1 "ab.c"
	.text
	.globl main
	.ent main
main:
	.loc 1 3 0
	li $2,0
	jr $31
	.end main
