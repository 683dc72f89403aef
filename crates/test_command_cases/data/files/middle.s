addi r0,#3,r1
again: addi r3,#5,r3
middle: add r2,r3,r2
addi r1,#-1,r1
bne r1,r0,again
st 256[r0],r2
halt
