        .globl main
main:   addiu $sp,$sp,-16
        li $2,5
        addiu $3,$sp,3
        sh $2,0($3)
        addiu $sp,$sp,16
        jr $31
