; a routine for each star, far from the loop
        addi r0,#42,r1
        addi r0,#12,r2
next:   call star,r31
        addi r2,#-1,r2
        bne  r2,r0,next
        halt
        nop
        nop
star:   st   255[r0],r1
        jr   r31
