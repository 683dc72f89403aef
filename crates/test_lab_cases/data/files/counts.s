        addi r0,#256,r1
        addi r0,#3,r4
loop:   ld   0[r1],r2
        addi r4,#-1,r4
        b    use
use:    add  r2,r3,r3
        bne  r4,r0,loop
        halt
