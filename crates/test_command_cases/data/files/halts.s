.export first
first: halt