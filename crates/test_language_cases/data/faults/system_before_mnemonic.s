nop
jpc
frob