addi r0,#1,r2
ld 256[r0],r1
x: halt
