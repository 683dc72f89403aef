nop
nop
