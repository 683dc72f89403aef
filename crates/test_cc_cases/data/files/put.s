 # What the hand-written cases print with: a byte. Under other systems it is putchar.
        .text
        .globl  put
put:
        sw      $4,1020($0)
        jr      $31
