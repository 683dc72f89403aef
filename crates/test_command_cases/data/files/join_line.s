nop
nop r1
