b x
x: b x..2
x..2: nop