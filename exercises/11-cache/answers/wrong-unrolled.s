; sends twelve stars, one word each: every second word misses
        addi r0,#42,r1
        st   255[r0],r1
        st   255[r0],r1
        st   255[r0],r1
        st   255[r0],r1
        st   255[r0],r1
        st   255[r0],r1
        st   255[r0],r1
        st   255[r0],r1
        st   255[r0],r1
        st   255[r0],r1
        st   255[r0],r1
        st   255[r0],r1
        halt
