; adds the numbers of a table and sends the sum as two digits
        la   table,r1
        la   end,r2
next:   ld   0[r1],r3
        addi r1,#1,r1
        add  r4,r3,r4
        bne  r1,r2,next
        addi r0,#10,r5
        addi r0,#48,r6
tens:   blo  r4,r5,units
        sub  r4,r5,r4
        addi r6,#1,r6
        b    tens
units:  st   255[r0],r6
        addi r4,#0,r4
        st   255[r0],r4
        halt
        .data
table:  .word 7,11,13,17,19
end:
