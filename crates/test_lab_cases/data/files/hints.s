start:  lw   r1,0[r2]
        li   r1,5
        addd r1,r2,r3
loop    add  r1,r2,r3
        addi r1,5,r2
        addi r1,r2,r3
        add  r1 r2,r3
        add  r1,r2,r3,r4
        ld   r1,0[r2]
        ld   [r1],r2
        add  t0,r1,r2
        add  r01,r1,r2
        b    Start
        b    strat
        .text
        .wrod 1
        st   0(r1),r2
        addi r0,#'A',r1
start:  halt
        add  r1,#1,r2 ; é may stand here
        add  r1,−1,r2
