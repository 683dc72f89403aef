; Prints the digits from 9 to 0 and halts: the second of two programs that print in turns, with ping.s.
addi r0,#57,r1
addi r0,#47,r2
next: st 255[r0],r1
addi r1,#-1,r1
bne r1,r2,next
halt
