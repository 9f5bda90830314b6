# run 1
# want x6=33 x8=0 x9=44 x7=0 pc=80000028
# Exactly 1,000 steps make a turn. The SC.D is the last one, and the load after it is not run.
        la      x5, cell            # steps 1 and 2
        li      x9, 0x44
        li      x8, 7
        li      x7, 496             # step 5
loop:   addi    x7, x7, -1
        bnez    x7, loop            # step 997, the last time
        nop
        lr.d    x6, (x5)            # step 999
        sc.d    x8, x9, (x5)
        ld      x9, 0(x5)
        j       .
        .balign 8
cell:   .dword  0x33
