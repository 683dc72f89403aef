; doubles a word
        ld   256[r0],r1
        add  r1,r1,r2
        st   257[r0],r2
        halt
        .data
        .word 20
