nop
x: y: x: halt
