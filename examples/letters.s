; Sends `Hi` by a routine of emit.s, with which it is joined.
        .import emit
        .import sent
        addi r0,#72,r1
        call emit,r31
        addi r0,#105,r1
        call emit,r31
        ld   sent[r0],r2    ; how many bytes were sent
        addi r0,#2,r3
        bne  r2,r3,next
        halt
next:   b    next
