 # What hand-written data are: aligned values, alignment inside a datum, fills, two labels on one datum, labels at an end, wide
 # numbers. The console gets a letter for each, worked out by hand; GNU's assembler and qemu-mips give the same.
        .text
        .globl  main
main:
        la      $8,first
        lw      $4,4($8)                # .byte 65, then .word 66, which is aligned
        sw      $4,1020($0)
        la      $8,inside
        lb      $4,4($8)                # .align 2 inside a datum
        sw      $4,1020($0)
        la      $8,powers
        lb      $4,8($8)                # .p2align 3
        sw      $4,1020($0)
        la      $8,filled
        lbu     $4,3($8)                # .space 4,69
        sw      $4,1020($0)
        lbu     $4,6($8)                # .skip 3,70
        sw      $4,1020($0)
        la      $8,wide
        lw      $4,0($8)                # .dword 0x80000000: 0 above it
        addiu   $4,$4,71
        sw      $4,1020($0)
        lw      $4,8($8)                # .dword -1: -1 above it
        addiu   $4,$4,73
        sw      $4,1020($0)
        lw      $4,16($8)               # .dword 0x4900000000
        sw      $4,1020($0)
        la      $8,one
        la      $9,two                  # two labels of one datum
        subu    $4,$9,$8
        addiu   $4,$4,74
        sw      $4,1020($0)
        lw      $4,two
        sw      $4,1020($0)
        la      $8,table
        la      $9,table_end            # a label after the last datum
        subu    $4,$9,$8
        addiu   $4,$4,64
        sw      $4,1020($0)
        la      $8,half
        lh      $4,2($8)                # .byte, then .half, which is aligned
        sw      $4,1020($0)
        la      $8,packed
        lb      $4,4($8)                # .byte, then .4byte, which is not
        sw      $4,1020($0)
        la      $8,balanced
        lb      $4,4($8)                # .balign 4
        sw      $4,1020($0)
        la      $8,quad
        lw      $4,12($8)               # .byte, then .quad, which is aligned
        sw      $4,1020($0)
        li      $4,10
        sw      $4,1020($0)
        jr      $31

        .data
first:  .byte   65
        .word   66
        .align  2
inside: .byte   1
        .align  2
        .byte   67
        .align  3
powers: .byte   1
        .p2align 3
        .byte   68
filled: .space  4,69
        .skip   3,70
        .align  3
wide:   .dword  0x80000000
        .dword  -1
        .dword  0x4900000000
one:
two:    .word   75
table:  .word   1,2,3
table_end:
        .rdata
        .align  3
half:   .byte   1
        .half   77
packed: .byte   1
        .4byte  78
        .align  2
balanced: .byte 1
        .balign 4
        .byte   79
        .align  3
quad:   .byte   1
        .quad   80
