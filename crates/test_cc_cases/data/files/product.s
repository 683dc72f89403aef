main:   mul     $2,$3
        seq     $2
        jr      $31
