        .globl main
main:   la $2,$L1+4
$L1:    jr $31
