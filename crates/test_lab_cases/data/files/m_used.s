        .import emit
start:  addi r0,#72,r1
        call emit,r31
        halt
unused: halt
