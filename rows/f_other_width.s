# run 1
# want x6=ffffffff80000001 x8=1 x9=1 x10=1 x11=0 x12=7780000001
# A reservation has a width; the SC.W keeps the low half alone.
        la      x5, cell
        li      x7, 0x77
        li      x11, 9
        lr.w    x6, (x5)
        sc.d    x8, x7, (x5)
        lr.d    x0, (x5)
        sc.w    x9, x7, (x5)
        sc.w    x10, x7, (x5)       # nothing is held any more
        addi    x5, x5, 4
        lr.w    x0, (x5)
        sc.w    x11, x7, (x5)
        ld      x12, -4(x5)
        j       .
        .balign 8
cell:   .dword  0x80000001
