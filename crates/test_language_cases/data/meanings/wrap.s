addi r0,#-1,r1
addi r1,#1,r2
sub r0,r1,r3
add r1,r1,r4
addi r0,#65535,r0
addi r0,#-65536,r31
halt
