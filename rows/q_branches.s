# run 1
# want x5=4 x6=3 x7=2 x8=5 x9=1 x10=6 x11=5 x12=80000024
# x5 to x10 are beq, bne, blt, bge, bltu, bgeu; a bit is 1 where the branch is taken, on the pairs
# 5 and 5, -1 and 1, 1 and -1, from the first bit down.
        .macro  pair kind, dest, a, b
        slli    \dest, \dest, 1
        ori     \dest, \dest, 1
        \kind   \a, \b, 1f
        xori    \dest, \dest, 1
1:
        .endm
        .macro  pairs kind, dest
        pair    \kind, \dest, x1, x2
        pair    \kind, \dest, x3, x4
        pair    \kind, \dest, x4, x3
        .endm
        li      x1, 5
        li      x2, 5
        li      x3, -1
        li      x4, 1
        j       3f
2:      addi    x11, x11, 1                 # backward branches
        bne     x11, x1, 2b
        j       4f
3:      jal     x12, 5f                     # the link
5:      j       2b
4:
        pairs   beq, x5
        pairs   bne, x6
        pairs   blt, x7
        pairs   bge, x8
        pairs   bltu, x9
        pairs   bgeu, x10
        j       .
