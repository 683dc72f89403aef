; sends a name, a byte at a time
        addi r0,#65,r1
        st   255[r0],r1
        addi r0,#100,r1
        st   255[r0],r1
        addi r0,#97,r1
        st   255[r0],r1
        halt
