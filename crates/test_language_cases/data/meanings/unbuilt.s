addi r0,#1,r1
nop
halt
