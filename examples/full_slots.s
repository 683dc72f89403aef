; A branch whose two slots could hold the whole body. The greedy plan asks at place 0 whether slot 1 with the xor and slot 2
; with the load would do, which it may not, since no load stands in slot 2, and puts the xor before the branch: 4 words.
; A shortest plan is the branch, the load, the xor: 3 words.
back:   xor  r3,r1,r3
        ld   258[r0],r4
        blo  r2,r0,back
        halt
