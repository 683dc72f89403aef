 # A string that does not end.
        .data
x:      .ascii  "no end
        .text
main:   jr      $31
