# run 1
# pages 2
# want x5=1 x6=e x7=8 x8=7 x9=6 x10=9 x12=1 pc=80001400 scause=0
# x5 to x10 are beq, bne, blt, bge, bltu, bgeu; a bit is 1 where the branch is taken, on the least and the
# greatest number, these the other way round, 0 and -1, and the least twice, from the first bit down.
# Then the farthest branch forwards, 4,092 bytes, and the farthest backwards, 4,096.
        .macro  pair kind, dest, a, b
        slli    \dest, \dest, 1
        ori     \dest, \dest, 1
        \kind   \a, \b, 1f
        xori    \dest, \dest, 1
1:
        .endm
        .macro  pairs kind, dest
        pair    \kind, \dest, x1, x2
        pair    \kind, \dest, x2, x1
        pair    \kind, \dest, x0, x3
        pair    \kind, \dest, x1, x1
        .endm
        li      x3, -1
        srli    x2, x3, 1
        xori    x1, x2, -1
        pairs   beq, x5
        pairs   bne, x6
        pairs   blt, x7
        pairs   bge, x8
        pairs   bltu, x9
        pairs   bgeu, x10
        j       far
        .org    0x3f8
back:   li      x12, 1                      # 0x3f8, where the branch backwards leads alone
        j       done
far:    beq     x0, x0, ahead               # 0x400
        .org    0x13f8
behind: bgeu    x0, x0, back
ahead:  j       behind                      # 0x13fc
done:   j       .
