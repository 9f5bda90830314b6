# run 1
# want x5=4000080000401 x6=4000080000402 x7=4000080000404 x8=4000080000403 x9=4000080000401
# want x10=6000080000401 x11=6000080000402 x12=6000080000404 x13=4000080000402 x14=4000080000404
# want x15=6000080000402 x16=6000080000404 x17=6000080000402 x18=6000080000404
# want x19=4000090000004 x20=6000090000001 x21=6000090000004 x22=1122334455667788 x23=0 x31=5a5
        .include "trap.inc"
main:   la      x1, cell
        li      x2, 0x90000000
        li      x31, 0x5a5
        try     x5, lh x31, 1(x1)
        try     x6, lw x31, 2(x1)
        try     x7, ld x31, 4(x1)
        try     x8, lhu x31, 3(x1)
        try     x9, lwu x31, 1(x1)
        try     x10, sh x31, 1(x1)
        try     x11, sw x31, 2(x1)
        try     x12, sd x31, 4(x1)
        addi    x3, x1, 2
        addi    x4, x1, 4
        try     x13, lr.w x31, (x3)
        try     x14, lr.d x31, (x4)
        try     x15, sc.w x31, x1, (x3)
        try     x16, sc.d x31, x1, (x4)
        try     x17, amoadd.w x31, x1, (x3)
        try     x18, amoadd.d x31, x1, (x4)
        try     x19, ld x31, 4(x2)          # misaligned stands before the hole
        try     x20, sd x31, 1(x2)
        addi    x3, x2, 4
        try     x21, sc.d x31, x1, (x3)
        ld      x22, 0(x1)                  # no store went through
        try     x23, lwu x24, 4(x1)         # 4 bytes at a multiple of 4 are lawful
        j       .
        .org    0x400
cell:   .dword  0x1122334455667788, 0
