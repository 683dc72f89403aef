.export first
first: nop
