.export second
.EXPORT second
second: nop
