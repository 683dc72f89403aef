; a nested counting loop of one line of the cache, as in turns.sh
again:  addi r0,#1000,r1
inner:  addi r1,#-1,r1
        bne  r1,r0,inner
        add  r2,r3,r2
        addi r4,#1,r4
        b    again
