b y
.x: y: nop
