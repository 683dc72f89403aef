first: nop
.import first
