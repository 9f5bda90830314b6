# run 1
# want x6=11 x7=22 x8=11 x9=22 x10=33 x11=44 x12=44 x13=0 x14=ffffffff80000000 x15=80000800 x16=77
# want x17=90000001 x4=ffffffff90000001
# Rows whose rd is one of their sources; aq and rl bits set; x0 as rd of a load and of an AMO.
        la      x5, cell
        li      x6, 0x11
        amoadd.d x6, x6, (x5)               # 0x11 there, so rd 0x11 and 0x22 there
        ld      x7, 0(x5)
        mv      x8, x5
        li      x9, 0x11
        amoswap.d.aqrl x9, x9, (x5)
        ld      x8, 0(x5)
        la      x1, cell + 8
        lr.d.aq x10, (x1)
        mv      x11, x1
        li      x13, 9
        sc.d.rl x13, x1, (x1)
        li      x2, 0x44
        sd      x2, 0(x1)
        ld      x11, 0(x11)                 # a load into its base
        amoor.d x0, x0, (x1)                # x0 isn't written, memory stays
        ld      x12, 0(x1)
        la      x3, cell + 16
        lr.w.aqrl x14, (x3)
        sc.w    x0, x5, (x3)
        ld      x15, 0(x3)
        li      x16, 0x77
        la      x4, cell + 24
        amomaxu.w x4, x3, (x4)              # rd is the address
        la      x17, cell + 24
        lwu     x17, 0(x17)
        j       .
        .org    0x800
cell:   .dword  0x11, 0x33, 0x80000000, 0x90000001
