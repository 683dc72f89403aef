; Sorts eight letters by insertion and sends them.
        la   table,r1       ; r1 is the address of the letter to insert
        addi r1,#8,r7       ; r7 is the end of the table
outer:  addi r1,#1,r1
        beq  r1,r7,print
        ld   0[r1],r2       ; the letter to insert
        mov  r1,r3          ; the place to insert it at
        la   table,r6
inner:  beq  r3,r6,insert
        ld   -1[r3],r4
        bge  r2,r4,insert
        st   0[r3],r4       ; a greater letter moves up
        addi r3,#-1,r3
        b    inner
insert: st   0[r3],r2
        b    outer
print:  la   table,r1
send:   ld   0[r1],r2
        addi r1,#1,r1
        st   255[r0],r2
        bne  r1,r7,send
        halt

        .data
table:  .word 80,73,80,69,76,73,78,69      ; PIPELINE
