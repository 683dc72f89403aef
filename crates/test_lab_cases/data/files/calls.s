; calls a routine twice, which doubles r1
        addi r0,#5,r1
        call double,r31     ; r31 is where the routine returns to
        call double,r31
        st   256[r0],r1     ; data word 256 is the first of the program's own
        halt
double: add  r1,r1,r1
        jr   r31
