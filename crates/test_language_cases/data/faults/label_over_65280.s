.data
.space 65280
x: