; sends the low byte first
        .input
        ld   254[r0],r1
        ld   254[r0],r2
        movtos r1,md
        addi r0,#15,r4
        mstart r2,r3
next:   mstep r3,r2,r3
        addi r4,#-1,r4
        mstep r3,r2,r3
        bne  r4,r0,next
        mstep r3,r2,r3
        asr  r3,#8,r4
        st   255[r0],r3
        st   255[r0],r4
        halt
