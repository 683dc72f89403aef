; a loop of 22 words, which are in two lines of the cache
again:  addi r1,#1,r1
        xor  r2,r3,r8
        add  r3,r4,r9
        xor  r4,r5,r10
        add  r5,r6,r11
        xor  r6,r3,r12
        add  r2,r4,r13
        xor  r3,r5,r14
        add  r4,r6,r8
        xor  r5,r3,r9
        add  r6,r4,r10
        xor  r2,r5,r11
        add  r3,r6,r12
        xor  r4,r3,r13
        add  r5,r4,r14
        xor  r6,r5,r8
        add  r2,r6,r9
        xor  r3,r3,r10
        add  r4,r4,r11
        xor  r5,r5,r12
        add  r6,r6,r13
        b    again
