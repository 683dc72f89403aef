nop
.export .x
