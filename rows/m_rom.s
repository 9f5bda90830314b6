# script guest create a trees/one.dtb
# script guest poke a 0x80000000 PROGRAM
# script guest poke a 0 1122334455667788
# script guest poke a 0x100 130ad00467800000
# script guest poke a 0xfffe 0102
# script guest poke a 0xfffe 010203
# script guest poke a 0x10000000 00
# script guest kick a
# script run 1
# script guest mem a 0 8
# script guest mem a 0x10000000 1
# script guest audit a
# script guest regs a 0
# answer poked a 8
# answer poked a 8
# answer poked a 2
# answer refused outside
# answer refused outside
# answer mem a 0000000000000000 1122334455667788
# answer refused outside
# answer audit a 2064
# want x5=8877665544332211 x6=7000000000000 x7=7000000000002 x8=7000000000004 x9=7000000000000
# want x10=7000000000004 x11=7000000000000 x12=8877665544332211 x13=7000000000000 x14=6000000000001
# want x15=8877665544332211 x16=4d x17=7000000000000 x18=ffffffffffff8877 x19=20 x20=4d x21=5000000010000
# want x22=700000000fff8 x23=0 x24=7000000010000
# The guest reads a ROM, fetches from it and reserves in it; stores, SC and AMO there are access faults,
# misaligned or not there first as ever. The host writes it. A reservation of RAM outlives an SC that the
# ROM refuses.
        .include "trap.inc"
main:   li      x2, -1
        ld      x5, 0(x0)
        try     x6, sb x2, 0(x0)
        try     x7, sh x2, 2(x0)
        try     x8, sw x2, 4(x0)
        try     x9, sd x2, 0(x0)
        li      x1, 4
        try     x10, amoswap.w x31, x2, (x1)
        try     x11, amoadd.d x31, x2, (x0)
        lr.d    x12, (x0)
        try     x13, sc.d x31, x2, (x0)
        try     x14, sh x2, 1(x0)
        jalr    x1, 0x100(x0)
        mv      x16, x20                    # which the ROM's code has set
        ld      x15, 0(x0)
        la      x3, cell
        lr.w    x19, (x3)
        try     x17, sc.w x31, x2, (x0)
        sc.w    x23, x2, (x3)
        lh      x18, 6(x0)
        lui     x4, 0x10
        try     x21, ld x31, 0(x4)          # behind it
        try     x22, sd x2, -8(x4)
        try     x24, sd x2, 0(x4)
        j       .
        .balign 8
cell:   .word   0x20
