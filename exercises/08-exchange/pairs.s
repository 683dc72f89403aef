; which neighbours may change places?
        addi r0,#300,r1
a:      ld   0[r1],r2
        addi r1,#1,r1
b:      st   1[r3],r2
        ld   0[r4],r5
c:      st   255[r0],r6
        ld   256[r0],r7
d:      add  r2,r5,r6
        sub  r7,r2,r8
e:      st   256[r0],r8
        st   257[r0],r6
f:      st   255[r0],r8
        st   255[r0],r6
        halt
