bad bad
.import nowhere
