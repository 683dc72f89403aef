; stops before 0
        addi r0,#57,r1
        addi r0,#48,r2
next:   st   255[r0],r1
        addi r1,#-1,r1
        bne  r1,r2,next
        halt
