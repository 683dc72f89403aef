; the name is nowhere
.export second
nop
