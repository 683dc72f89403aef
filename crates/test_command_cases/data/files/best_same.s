ld 256[r0],r1
addi r1,#1,r1
addi r0,#5,r2
halt
.data
.word 41
