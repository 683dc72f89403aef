addi r0,#40,r1
addi r0,#2,r2
add r1,r2,r3
sub r1,r2,r4
st 255[r0],r3
halt
