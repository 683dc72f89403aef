; Selects a routine by a number, with a table of code addresses. It reads bytes and sends U for 0, V for 1 and W for 2.
        .input
next:   ld   254[r0],r1     ; the next byte of the input
        addi r0,#-1,r2
        beq  r1,r2,done     ; all bits are 1: the input has ended
        addi r1,#-48,r1     ; the value of the digit
        addi r0,#3,r2
        bhs  r1,r2,next     ; other bytes are ignored; unsigned, so one comparison is enough
        ld   table[r1],r3   ; the address of the table plus the number
        jr   r3
zero:   addi r0,#85,r4
        b    send
one:    addi r0,#86,r4
        b    send
two:    addi r0,#87,r4
send:   st   255[r0],r4
        b    next
done:   halt

        .data
table:  .word zero,one,two
