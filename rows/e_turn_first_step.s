# run 2
# want x6=33 x8=1 x9=33 x7=0
# The LR.D is the last step of the first turn, the SC.D the first of the second.
        la      x5, cell            # steps 1 and 2
        li      x9, 0x44
        li      x8, 7
        li      x7, 496             # step 5
loop:   addi    x7, x7, -1
        bnez    x7, loop            # step 997, the last time
        nop
        nop
        lr.d    x6, (x5)            # step 1,000
        sc.d    x8, x9, (x5)
        ld      x9, 0(x5)
        j       .
        .balign 8
cell:   .dword  0x33
