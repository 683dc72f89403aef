x: .data
d: .code
beq r1,r2,d
addi r0,#65536,r1
