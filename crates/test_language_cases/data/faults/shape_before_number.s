.data
.word 4294967296,
