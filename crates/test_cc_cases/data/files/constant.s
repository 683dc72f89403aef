main:   li      $2,x
        .set    x,5
        jr      $31
