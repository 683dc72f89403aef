        addi r0,#2,r1
early:  addi r1,#-1,r1
        beq  r1,r2,late         ; copies of what stands behind it
        b    last
late:   addi r3,#1,r3
        addi r4,#1,r4
last:   bne  r1,r0,early        ; and of what stands before it
        halt
