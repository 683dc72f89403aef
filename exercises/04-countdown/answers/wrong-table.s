; the digits from a table, which costs a load each
        la   digits,r1
        la   end,r2
next:   ld   0[r1],r3
        addi r1,#1,r1
        st   255[r0],r3
        bne  r1,r2,next
        halt
        .data
digits: .word 57,56,55,54,53,52,51,50,49,48
end:
