; sums up 1 to 5 in a function, as a translator of C writes it
        addi r0,#5,r4
        call _sum,r31
        st   255[r0],r2
        halt
_sum:
; sum.c:3
        addi r0,#0,r2
L1.1:
; sum.c:5
        add  r2,r4,r2
        addi r4,#-1,r4
; sum.c:4
        bne  r4,r0,L1.1
; sum.c:5
        addi r2,#48,r2
; sum.c:6
        jr   r31
