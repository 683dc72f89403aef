b x
.data
x: .word 1
.code
x: nop
