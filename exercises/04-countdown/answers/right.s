; sends the digits from 9 down to 0: the branch's slots take the loop's first two words
        addi r0,#57,r1
        addi r0,#47,r2
next:   st   255[r0],r1
        addi r1,#-1,r1
        bne  r1,r2,next
        halt
