; follows a pointer twice, and adds
        ld   256[r0],r2
        ld   257[r0],r3
        ld   0[r2],r4
        add  r3,r4,r5
        ld   1[r2],r6
        add  r5,r6,r5
        st   258[r0],r5
        halt
        .data
        .word 259,2,0,30,10
