; Multiplies and divides. MIPS-X has no such instruction, only steps that use the special register MD.
; Product: one factor in MD, the other in r2. One mstart and 31 msteps leave the low word of the product in r3.
        addi r0,#-12,r1
        addi r0,#34,r2
        movtos r1,md
        mstart r2,r3
        addi r0,#31,r4      ; how many steps are left
times:  mstep r3,r2,r3
        addi r4,#-1,r4
        bne  r4,r0,times
        st   256[r0],r3     ; -408

; Quotient: the dividend in MD, the divisor in r2, 0 in r3. 32 dsteps leave the quotient in MD and the remainder in r3.
        addi r0,#1000,r1
        addi r0,#7,r2
        movtos r1,md
        mov  r0,r3
        addi r0,#32,r4
over:   dstep r3,r2,r3
        addi r4,#-1,r4
        bne  r4,r0,over
        movfrs md,r5
        st   257[r0],r5     ; 142
        st   258[r0],r3     ; 6
        halt
