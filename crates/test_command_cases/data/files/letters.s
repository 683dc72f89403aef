; Prints `a` to `z` again and again.
begin: addi r0,#97,r1
addi r0,#123,r2
next: st 255[r0],r1
addi r1,#1,r1
bne r1,r2,next
b begin
