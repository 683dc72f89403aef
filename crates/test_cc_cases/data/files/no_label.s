        .globl main
main:   la $2,text
        jr $31
        .data
text:   .asciiz "text"
        .rdata
        .word 5
