; adds up two tables: two loads and two stores in nine instructions
again:  la   first,r1
        addi r0,#64,r2
next:   ld   0[r1],r3
        ld   64[r1],r4
        addi r1,#1,r1
        add  r3,r4,r5
        st   127[r1],r5
        addi r2,#-1,r2
        st   63[r1],r3
        bne  r2,r0,next
        b    again
.data
first:  .space 64
second: .space 64
sums:   .space 128
