; sums up 1 to 3 in a function; each line ends with CR and LF, the last one with CR alone

        addi r0,#3,r4
        call _sum,r31
        st   255[r0],r2
        halt

_sum:
; sum.c:3
        addi r0,#0,r2
L1.1:
; sum.c:5
        add  r2,r4,r2
        addi r4,#-1,r4
; sum.c:4
        bne  r4,r0,L1.1
; sum.c:6
        jr   r31