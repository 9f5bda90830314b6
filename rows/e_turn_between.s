# run 2
# want x6=33 x8=1 x9=33 x7=0 ran=2,0,200
        la      x5, cell
        lr.d    x6, (x5)            # step 3 of the first turn
        li      x7, 600
loop:   addi    x7, x7, -1
        bnez    x7, loop
        li      x9, 0x44
        sc.d    x8, x9, (x5)        # step 1,206, in the second turn
        ld      x9, 0(x5)
        j       .
        .balign 8
cell:   .dword  0x33
