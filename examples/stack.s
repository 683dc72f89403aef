; Computes the 10th Fibonacci number by recursion, with a stack in data memory: fib(n) = fib(n-1) + fib(n-2).
; r29 is the stack pointer. It points to the last word in use; the stack grows towards lower addresses.
; r1 is the argument, r2 the result, r31 the return address, which is a code address: it can be stored and loaded.
        addi r0,#4096,r29   ; data words up to 4095 are the stack's
        addi r0,#10,r1
        call fib,r31
        st   256[r0],r2     ; ./mx run examples/stack.s --dump 256 prints this word
        halt

fib:    addi r0,#2,r3
        bge  r1,r3,split
        mov  r1,r2          ; fib(0) = 0, fib(1) = 1
        jr   r31
split:  addi r29,#-3,r29    ; three words: the return address, n, fib(n-1)
        st   0[r29],r31
        st   1[r29],r1
        addi r1,#-1,r1
        call fib,r31
        st   2[r29],r2
        ld   1[r29],r1
        addi r1,#-2,r1
        call fib,r31
        ld   2[r29],r3
        add  r2,r3,r2
        ld   0[r29],r31
        addi r29,#3,r29
        jr   r31
