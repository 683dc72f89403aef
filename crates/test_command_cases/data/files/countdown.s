addi r0,#12,r1
addi r0,#0,r2
L: st 256[r0],r1
add r2,r1,r2
addi r1,#-1,r1
bne r1,r0,L
halt
