; </script> sends a blank
        addi r0,#32,r1
        st   255[r0],r1
        halt
