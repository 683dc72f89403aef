x..2: halt
x: halt
