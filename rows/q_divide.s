# run 1
# want x5=8000000000000000 x6=0 x7=ffffffffffffffff x8=7 x9=fffffffffffffffd x10=ffffffffffffffff
# want x11=fffffffffffffffd x12=1 x13=ffffffffffffffff x14=7 x15=0 x16=8000000000000000
# want x17=7fffffffffffffff x18=1 x19=8000000000000000 x20=3 x21=ffffffffffffffff x22=ffffffffffffffff
        .irp    n, 5, 6, 7, 8, 9, 10, 11, 12, 13, 14, 15, 16, 17, 18, 19, 20, 21, 22
        li      x\n, 0x5a5                 # so that a 0 below was written
        .endr
        li      x1, -1
        slli    x2, x1, 63                  # the least number
        li      x3, 7
        li      x4, 2
        li      x30, -7
        li      x31, -2
        div     x5, x2, x1
        rem     x6, x2, x1
        div     x7, x3, x0
        rem     x8, x3, x0
        div     x9, x30, x4                 # towards zero
        rem     x10, x30, x4                # the sign of the dividend
        div     x11, x3, x31
        rem     x12, x3, x31
        divu    x13, x3, x0
        remu    x14, x3, x0
        divu    x15, x2, x1
        remu    x16, x2, x1
        divu    x17, x1, x4
        remu    x18, x1, x4
        rem     x19, x2, x0
        div     x20, x30, x31
        rem     x21, x30, x31
        divu    x22, x2, x0
        j       .
