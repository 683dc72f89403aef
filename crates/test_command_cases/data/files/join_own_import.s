second: nop
.export second
.import second
