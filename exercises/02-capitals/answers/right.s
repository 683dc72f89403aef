; sends its input with small letters as capitals
        .input
        addi r0,#97,r2      ; 'a'
        addi r0,#123,r3     ; after 'z'
        addi r0,#-1,r4
next:   ld   254[r0],r1
        beq  r1,r4,done
        blo  r1,r2,send
        bhs  r1,r3,send
        addi r1,#-32,r1
send:   st   255[r0],r1
        b    next
done:   halt
