; A block that falls through and may not end with its load. The greedy plan takes the instruction of least number first,
; and needs a no-op behind the load: 3 words. A shortest plan has the load first: 2 words.
        addi r0,#1,r2
        ld   256[r0],r1
x:      halt
        .data
        .word 41
