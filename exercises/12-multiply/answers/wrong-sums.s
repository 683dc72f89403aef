; adds the first factor as often as the second one says
        .input
        ld   254[r0],r1
        ld   254[r0],r2
next:   beq  r2,r0,done
        add  r3,r1,r3
        addi r2,#-1,r2
        b    next
done:   asr  r3,#8,r4
        st   255[r0],r4
        st   255[r0],r3
        halt
