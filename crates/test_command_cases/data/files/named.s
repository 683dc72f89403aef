halt
.data
here: .word 7
