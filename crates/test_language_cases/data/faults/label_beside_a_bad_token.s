b y
y: nop 5x
