; prints 321
        addi r0,#51,r1      ; the byte of the digit 3
        addi r0,#48,r2      ; the byte of the digit 0
next:   st   255[r0],r1
        addi r1,#-1,r1
        bne  r1,r2,next
        halt
