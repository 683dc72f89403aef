; sends two texts by one routine, and a dash between them
        la   first,r1
        call print,r2
        addi r0,#45,r3
        st   255[r0],r3
        la   second,r1
        call print,r2
        halt
; sends the words from r1 on, up to a 0; changes r1 and r2
print:  ld   0[r1],r2
        addi r1,#1,r1
        beq  r2,r0,back
        st   255[r0],r2
        b    print
back:   jr   r2
        .data
first:  .word 77,73,80,83,0
second: .word 88,0
