.data
.space 65279
.word 1,2
