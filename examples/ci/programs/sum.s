; prints the sum of four numbers as one byte: A
        la   table,r1       ; the address of the first number
        addi r0,#4,r2       ; counts down
next:   ld   0[r1],r3
        add  r4,r3,r4
        addi r1,#1,r1
        addi r2,#-1,r2
        bne  r2,r0,next
        st   255[r0],r4
        halt
.data
table:  .word 10,20,30,5
