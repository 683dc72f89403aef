b y
y: nop 
