; Prints numbers in decimal, one on each line. A digit is the remainder of a division by 10, and the last digit comes first:
; so the digits go to a buffer from its end, and are sent from there.
        la   list,r10
        addi r0,#4,r11      ; how many numbers are left
each:   ld   0[r10],r1
        call print,r31
        addi r10,#1,r10
        addi r11,#-1,r11
        bne  r11,r0,each
        halt

; Sends the unsigned number in r1 and a line feed. Changes r1 to r6.
print:  la   end,r6         ; the buffer is filled downwards from here
        addi r0,#10,r2
digit:  movtos r1,md
        mov  r0,r3
        addi r0,#32,r4
divide: dstep r3,r2,r3
        addi r4,#-1,r4
        bne  r4,r0,divide
        movfrs md,r1        ; the quotient
        addi r3,#48,r3      ; the remainder as a digit
        addi r6,#-1,r6
        st   0[r6],r3
        bne  r1,r0,digit
        la   end,r5
send:   ld   0[r6],r3
        addi r6,#1,r6
        st   255[r0],r3
        bne  r6,r5,send
        addi r0,#10,r3
        st   255[r0],r3
        jr   r31

        .data
list:   .word 0,7,1983,4294967295
        .space 10           ; the buffer: a number of 32 bits has at most 10 digits
end:    .word 0
