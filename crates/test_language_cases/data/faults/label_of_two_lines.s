x: nop
x: halt