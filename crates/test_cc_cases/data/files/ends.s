 # A label behind the last datum is at its end, also where the datum has more than 256 bytes and comes after all shorter ones. The console
 # gets a letter: how many bytes there are between the two labels, less 235.
        .text
        .globl  main
main:
        la      $8,large
        la      $9,large_end
        subu    $4,$9,$8
        addiu   $4,$4,-235
        sw      $4,1020($0)
        lw      $4,small
        sw      $4,1020($0)
        jr      $31
        .data
small:
        .word   66
large:
        .space  300
large_end:
