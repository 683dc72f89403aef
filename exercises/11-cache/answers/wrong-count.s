; sends twelve stars from a loop: its words miss the cache once
        addi r0,#42,r1
        addi r0,#11,r2
next:   st   255[r0],r1
        addi r2,#-1,r2
        bne  r2,r0,next
        halt
