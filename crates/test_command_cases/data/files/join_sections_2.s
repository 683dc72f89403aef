nop
.input
.data
a: .word 2