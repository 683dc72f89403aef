; adds five numbers
        addi r0,#5,r1
next:   ld   256[r2],r3
        addi r2,#1,r2
        addi r1,#-1,r1
        add  r4,r3,r4
        bne  r1,r0,next
        st   300[r0],r4
        halt
        .data
        .word 3,1,4,1,5
