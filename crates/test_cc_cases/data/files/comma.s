main:   li      $2,','x
        jr      $31
