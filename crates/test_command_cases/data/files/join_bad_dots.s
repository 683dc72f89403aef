a..b: nop
.export a..b
