        .input
begin:  beq  r1,r1,over
        add  r1,r1,r1
        nop
over:   add  r1,r2,r3
dead:   b    last
tail:   halt
last:   nop
