# script guest create a trees/one.dtb
# script guest poke a 0x80000000 PROGRAM
# script vserial input a/uart@10000000 5a
# script guest kick a
# script run 1
# script guest regs a 0
# want x5=500000c200004 x6=500000c200004 x7=500000c200004 x8=500000c200004 x9=500000c200000
# want x10=700000c000028 x11=700000c000028 x12=700000c000028 x13=400000c200006 x14=400000c200004
# want x15=600000c000026 x16=1 x17=0 x18=0 x19=0 x20=0 x21=400 x22=0 x23=0 x24=500000c400000 x25=5a5 x26=a
# want x27=700000c000024
# The PLIC takes aligned words alone, and what it refuses changes nothing: source 10 is still to be claimed
# at the end. There is no context 1, since there is no VCPU 1. What is no register reads 0.
        .include "trap.inc"
main:   lui     x1, 0xc000
        lui     x2, 0xc001
        lui     x3, 0xc002
        lui     x4, 0xc200
        lui     x31, 0x10000
        li      x30, 1
        sw      x30, 40(x1)
        sb      x30, 1(x31)
        li      x30, 1024
        sw      x30, 0(x3)
        li      x25, 0x5a5
        try     x5, lb x25, 4(x4)
        try     x6, lbu x25, 4(x4)
        try     x7, lh x25, 4(x4)
        try     x8, lhu x25, 4(x4)
        try     x9, ld x25, 0(x4)
        try     x10, sb x25, 40(x1)
        try     x11, sh x25, 40(x1)
        try     x12, sd x25, 40(x1)
        try     x13, lw x25, 6(x4)
        try     x14, ld x25, 4(x4)
        try     x15, sw x25, 38(x1)
        try     x27, sb x25, 36(x1)
        lw      x16, 40(x1)
        lui     x31, 0xc201                 # context 1
        li      x17, -1
        sw      x17, 0(x31)
        lw      x17, 0(x31)
        lw      x18, 4(x31)
        li      x19, -1
        sw      x19, 128(x3)
        lw      x19, 128(x3)
        sw      x1, 0(x2)                   # pending can't be written
        sw      x0, 0(x2)
        lw      x20, 8(x2)
        lw      x21, 0(x2)
        lw      x22, 8(x3)
        lui     x31, 0xc400
        lw      x23, -4(x31)                # the last word
        try     x24, lw x25, 0(x31)
        lw      x26, 4(x4)
        j       .
