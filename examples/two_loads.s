; Two loads, and two readers of the second, one of them a load. The greedy plan takes the loads in source order, so that
; nothing can stand behind the second, and leaves the third load for last: 6 words with two no-ops. A shortest plan takes the
; second load first and the third before the add: 4 words and no no-op.
        ld   258[r0],r3
        ld   257[r0],r2
        add  r2,r3,r3
        ld   0[r2],r4
x:      halt
        .data
        .word 0,256,7
