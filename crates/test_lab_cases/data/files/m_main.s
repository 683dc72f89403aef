        .import emit
        .import table
        .import gone
        ld   table[r0],r1
        call emit,r31
        ld   emit[r0],r2
        call other,r31
        adi  r1,#1,r1
        halt
