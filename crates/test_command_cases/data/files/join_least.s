.import first
.export first
