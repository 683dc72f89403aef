; A routine for other files: `emit` sends the byte in r1 and counts it in `sent`.
        .export emit
        .export sent
emit:   st   255[r0],r1
        ld   sent[r0],r30
        addi r30,#1,r30
        st   sent[r0],r30
next:   jr   r31
        .data
sent:   .word 0
