# run 1
# want x5=7000080001000 x6=700007ffffff8 x7=7000080001000 x8=700007ffffffc x9=5000080001000
# want x10=500007ffffffe x11=500007ffffffc x12=5000080001000 x13=500007fffffff x14=5000080001000
# want x15=5000080001000 x16=700007ffffffc x17=7000080001000 x18=500007ffffffc x19=5000080001000
# want x20=700007ffffffc x21=7000080001000 x22=0 x23=0 x24=5000180000000 x25=5020080000000
# want x26=ffffffffffffff80 x27=5000000000000 x31=5a5
        .include "trap.inc"
main:   li      x1, 0x80001000              # the first byte after the region of one page
        li      x2, 0x7ffffffc              # the last word before it
        li      x31, 0x5a5
        try     x5, sb x31, 0(x1)
        try     x6, sd x31, -4(x2)
        try     x7, sh x31, 0(x1)
        try     x8, sw x31, 0(x2)
        try     x9, lb x31, 0(x1)
        try     x10, lh x31, 2(x2)
        try     x11, lw x31, 0(x2)
        try     x12, ld x31, 0(x1)
        try     x13, lbu x31, 3(x2)
        try     x14, lhu x31, 0(x1)
        try     x15, lwu x31, 0(x1)
        try     x16, sc.w x31, x31, (x2)    # no reservation is held: checked all the same
        try     x17, sc.d x31, x31, (x1)
        try     x18, lr.w x31, (x2)
        try     x19, lr.d x31, (x1)
        try     x20, amoswap.w x31, x31, (x2)
        try     x21, amoadd.d x31, x31, (x1)
        li      x3, 0x80
        try     x22, sb x3, -1(x1)          # the last byte is there
        lb      x26, -1(x1)
        try     x23, sd x0, -8(x1)
        li      x4, 0x180000000             # bits above 31 count, and those above 40
        try     x24, ld x31, 0(x4)
        li      x4, 0x20080000000
        try     x25, ld x31, 0(x4)
        try     x27, lbu x31, 0(x0)
        j       .
