main:   li      $2,1; frob $2; jr $31
