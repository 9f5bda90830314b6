# run 1
# want x5=ffffffff80000000 x6=ffffffff80000000 x7=7fffffff x8=0 x9=ffffffffffffffff x10=ffffffff80000000
# want x11=1 x12=0 x13=0 x14=1 x15=1 x16=0 x17=1 x18=fffffffffffff800 x19=7ff x20=ffffffffffffff0f
# want x21=ffffffff80000000 x22=7ffff000 x23=80000000 x24=1 x25=1 x26=0 x27=1234567887654321
# want x28=ffffffff87654321 x29=0 x31=ffffffffffffffff x30=ffffffff00001000
        .irp    n, 5, 6, 7, 8, 9, 10, 11, 12, 13, 14, 15, 16, 17
        li      x\n, 0x5a5                 # so that a 0 below was written
        .endr
        .irp    n, 18, 19, 20, 21, 22, 23, 24, 25, 26, 27, 28, 29
        li      x\n, 0x5a5                 # so that a 0 below was written
        .endr
        li      x1, 0x7fffffff
        li      x2, 1
        li      x3, -1
        addiw   x5, x1, 1
        addw    x6, x1, x2
        addiw   x7, x1, 0
        subw    x8, x2, x2
        subw    x9, x0, x2
        slli    x4, x2, 31                  # 0x80000000
        subw    x10, x4, x0
        slt     x11, x3, x2                 # -1 < 1
        sltu    x12, x3, x2                 # 2^64 - 1 < 1
        slti    x13, x2, -1
        sltiu   x14, x2, -1                 # the immediate counts as 2^64 - 1
        sltiu   x15, x0, 1
        slti    x16, x2, 1
        slti    x17, x3, 0
        ori     x18, x0, -2048
        andi    x19, x3, 2047
        xori    x20, x3, 0xf0
        lui     x21, 0x80000
        lui     x22, 0x7ffff
        add     x23, x1, x2
        slt     x24, x21, x0
        sltu    x25, x0, x3
        sltu    x26, x0, x0
        ld      x27, big
        addiw   x28, x27, 0
        add     x29, x3, x2                 # modulo 2^64
        sub     x31, x0, x2
base:   auipc   x30, 0x80001                # pc + 0xffffffff80001000
        la      x4, base
        sub     x30, x30, x4
        li      x4, 0x80000000
        add     x30, x30, x4                # 0x1000
        slli    x4, x3, 32
        or      x30, x30, x4
        add     x0, x3, x3                  # x0 isn't written
        j       .
        .balign 8
big:    .dword  0x1234567887654321
