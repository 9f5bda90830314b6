# run 3
# want x5=5dc pc=80000008 ran=3,0,300 state=started
# Three turns are 3,000 steps: one NOP, 1,500 times ADDI, and 1,499 jumps.
        nop
1:      addi    x5, x5, 1
        j       1b
