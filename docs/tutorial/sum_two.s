; the same sum, two words in each round of the loop
        la   table,r1       ; r1 is the address of the next word
        la   end,r2
next:   ld   0[r1],r3
        ld   1[r1],r5
        addi r1,#2,r1
        add  r4,r3,r4
        add  r4,r5,r4
        bne  r1,r2,next
        st   256[r0],r4
        halt
        .data
sum:    .word 0
table:  .word 10,20,30,40
end:    .word 0
