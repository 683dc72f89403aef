        .set    pop
main:   jr      $31
