; A load and a reader of its register. On MIPS-X the instruction after a load still sees the old value, so the linker has to
; put another instruction, or a no-op, between the two. The plan file load_delay.plans puts them side by side: it is rejected.
; load_delay.mxi is the program that this plan would have made: it stores 8 instead of 49.
        addi r0,#7,r1       ; the old value
        ld   256[r0],r1     ; 48
        addi r1,#1,r2
        st   257[r0],r2
        halt
        .data
        .word 48
