ld away[r0],r32
