# run 3
# want state=waiting ran=3,2,300 pc=80000004 x5=0 mode=S
        wfi
        li      x5, 1
        j       .
