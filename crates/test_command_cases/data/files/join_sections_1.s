halt
.data
a: .word 1