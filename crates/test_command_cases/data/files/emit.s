.export emit
emit: st 255[r0],r1
x: jr r31