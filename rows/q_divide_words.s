# run 1
# want x5=ffffffff80000000 x6=0 x7=ffffffffffffffff x8=ffffffff80000001 x9=ffffffffffffffff
# want x10=ffffffff80000000 x11=ffffffff80000000 x12=7fffffff x13=1 x14=2 x15=fffffffffffffffd
# want x16=ffffffffffffffff x17=7ffffffc x18=1 x19=ffffffffffffffff x20=ffffffffffffffff
        .irp    n, 5, 6, 7, 8, 9, 10, 11, 12, 13, 14, 15, 16, 17, 18, 19, 20
        li      x\n, 0x5a5                 # so that a 0 below was written
        .endr
        li      x1, -1
        li      x2, 0x80000000              # the least word, with zeros above
        li      x3, 0x80000001
        li      x4, 1
        divw    x5, x2, x1
        remw    x6, x2, x1
        divw    x7, x3, x0
        remw    x8, x3, x0
        divuw   x9, x3, x0
        divuw   x10, x2, x4
        remuw   x11, x2, x0
        remuw   x12, x1, x2                 # 0xffffffff - 0x80000000
        li      x30, 0x100000006            # what is above the word doesn't count
        li      x31, 0x500000004
        divw    x13, x30, x31
        remw    x14, x30, x31
        li      x30, -7
        li      x31, 2
        divw    x15, x30, x31
        remw    x16, x30, x31
        divuw   x17, x30, x31               # 0xfffffff9 / 2
        remuw   x18, x30, x31
        li      x31, 0x500000000            # a divisor whose word is 0
        divw    x19, x30, x31
        divuw   x20, x30, x31
        j       .
