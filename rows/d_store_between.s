# run 1
# want x6=0 x7=0 x8=77 x9=66 scause=0
        la      x5, cell
        li      x9, 0x66
        li      x7, 9
        lr.d    x6, (x5)
        sd      x9, 0(x5)           # the hart's own store leaves the reservation
        li      x8, 0x77
        sc.d    x7, x8, (x5)
        ld      x8, 0(x5)
        j       .
        .balign 8
cell:   .dword  0
