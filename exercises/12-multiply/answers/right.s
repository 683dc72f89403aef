; multiplies two bytes of the input, and sends the product as two bytes, the high one first
        .input
        ld   254[r0],r1
        ld   254[r0],r2
        movtos r1,md        ; one factor in MD, the other one in r2
        addi r0,#15,r4
        mstart r2,r3
next:   mstep r3,r2,r3
        addi r4,#-1,r4
        mstep r3,r2,r3
        bne  r4,r0,next
        mstep r3,r2,r3      ; the 31st
        asr  r3,#8,r4
        st   255[r0],r4
        st   255[r0],r3
        halt
