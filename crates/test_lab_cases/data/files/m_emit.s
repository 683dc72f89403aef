        .export emit
        .export table
        .export other
emit:   st   255[r0],r1
        b    nowhere
other:  jr   r31
        .data
table:  .word 72
