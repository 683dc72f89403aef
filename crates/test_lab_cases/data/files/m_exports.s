        .export emit
        .export spare
emit:   st   255[r0],r1
        jr   r31
spare:  jr   r31
