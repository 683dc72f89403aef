        addi r0,#7,r1
        ld   0[r1],r2
        halt
