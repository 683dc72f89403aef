; calls and returns, also one within another
again:  addi r1,#1,r1
        call double,r31
        add  r3,r4,r4
        call pass,r30
        b    again
double: add  r1,r1,r3
        xor  r3,r5,r5
        jr   r31
pass:   addi r6,#3,r6
        call double,r31
        sub  r6,r3,r7
        jr   r30
