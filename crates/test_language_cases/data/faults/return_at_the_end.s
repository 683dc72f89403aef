nop
frob