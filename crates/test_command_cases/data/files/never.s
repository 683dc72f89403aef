b over
L: addi r0,#1,r1
over: halt
end:
