b x
x: nop
.data
x: .word 1
