# run 1
# want x5=fffffffffffffff1 x6=f1 x7=ffffffffffffe2f1 x8=e2f1 x9=ffffffffc4d3e2f1 x10=c4d3e2f1
# want x11=8897a6b5c4d3e2f1 x12=ffffffffffffff88 x13=8 x14=708 x15=5060708 x16=102030405060708
# want x17=ffffffffffffcdff x18=ffffffff5678cdff x19=9abcdef05678cdff x20=fedcba9876543210
# want x21=fedcba9876543210 x22=ffffffffffffffc0 x23=8000000000000000 x24=10 x0=0
        la      x1, cell
        lb      x5, 0(x1)
        lbu     x6, 0(x1)
        lh      x7, 0(x1)
        lhu     x8, 0(x1)
        lw      x9, 0(x1)
        lwu     x10, 0(x1)
        ld      x11, 0(x1)
        lb      x12, 7(x1)
        lb      x13, 8(x1)
        lh      x14, 8(x1)
        lw      x15, 8(x1)
        ld      x16, 8(x1)
        li      x2, -1
        sd      x2, 16(x1)
        ld      x3, cdef
        sb      x3, 17(x1)                  # the low byte alone: cd
        ld      x17, 16(x1)
        ld      x3, h5678
        sh      x3, 18(x1)
        ld      x18, 16(x1)
        ld      x3, w9abc
        sw      x3, 20(x1)
        ld      x19, 16(x1)
        addi    x4, x1, 24
        addi    x4, x4, 2040
        ld      x20, 40(x1)
        sd      x20, -2040(x4)              # far below the base
        ld      x21, 24(x1)
        addi    x4, x1, -2047
        li      x3, 0xc0
        sb      x3, 2047(x4)                # the greatest offset
        lb      x22, 0(x1)
        li      x23, 1
        slli    x23, x23, 63
        lbu     x24, 40(x1)
        ld      x0, 0(x1)                   # x0 isn't written
        j       .
        .org    0xa00
cell:   .dword  0x8897a6b5c4d3e2f1, 0x0102030405060708, 0, 0, 0, 0xfedcba9876543210
cdef:   .dword  0x1122334455abcdcd
h5678:  .dword  0x1122334412345678
w9abc:  .dword  0x112233449abcdef0
