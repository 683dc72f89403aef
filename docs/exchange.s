; The reorganizer exchanges the two addi: something has to come between the load and its reader.
        ld   256[r0],r1
        addi r1,#1,r2
        addi r0,#72,r3
        st   255[r0],r3
        st   255[r0],r2
        halt
        .data
        .word 104
