# run 1
# want x5=8000000000000000 x6=4000000000000000 x7=0 x8=ffffffffffffffff x9=ffffffffffffffff
# want x10=8000000000000000 x11=0 x12=fffffffffffffffe x13=1 x14=0 x15=1 x16=20001
# want x17=fffffffffffffffe x18=0 x19=ffffffff80000000 x20=c000000000000000
# want x21=3fffffffffffffff x22=0 x23=121fa00ad77d7422 x24=35a1df76f0d5adf0
        .irp    n, 5, 6, 7, 8, 9, 10, 11, 12, 13, 14, 15, 16, 17, 18, 19, 20, 21, 22, 23, 24
        li      x\n, 0x5a5                 # so that a 0 below was written
        .endr
        li      x1, -1
        slli    x2, x1, 63                  # the least number
        srli    x3, x1, 1                   # the greatest
        li      x4, 1
        mul     x5, x2, x1
        mulh    x6, x2, x2                  # 2^126 / 2^64
        mulh    x7, x1, x1
        mulh    x8, x1, x4
        mulhsu  x9, x1, x1                  # -1 * (2^64 - 1)
        mulhsu  x10, x2, x1                 # -2^63 * (2^64 - 1) = -2^127 + 2^63
        mulhsu  x11, x4, x1
        mulhu   x12, x1, x1
        li      x25, 2
        mulhu   x13, x2, x25
        mulhu   x14, x4, x1
        mul     x15, x1, x1
        li      x26, 0x10001
        mulw    x16, x26, x26               # 0x100020001
        li      x26, 0x7fffffff
        mulw    x17, x26, x25
        mulw    x18, x1, x2                 # low halves: -1 * 0
        li      x26, 0x80000000
        mulw    x19, x26, x1
        mulh    x20, x2, x3                 # -2^63 * (2^63 - 1) = -2^126 + 2^63
        mulh    x21, x3, x3                 # 2^126 - 2^64 + 1
        mulw    x22, x2, x1
        ld      x27, a
        ld      x28, b
        mulhu   x23, x27, x28
        mul     x24, x27, x28
        j       .
        .balign 8
a:      .dword  0x123456789abcdef0
b:      .dword  0xfedcba9876543211
