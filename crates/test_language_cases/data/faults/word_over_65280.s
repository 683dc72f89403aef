.data
.space 65280
.word 1