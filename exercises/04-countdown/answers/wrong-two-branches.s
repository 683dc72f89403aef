; sends the digits from 9 down to 0, with a test at the top and a jump back
        addi r0,#57,r1
        addi r0,#47,r2
next:   beq  r1,r2,done
        st   255[r0],r1
        addi r1,#-1,r1
        b    next
done:   halt
