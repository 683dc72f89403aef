x: nop
x: halt
