# script guest create a trees/one.dtb
# script guest poke a 0x80000000 PROGRAM
# script guest kick a
# script run 1
# script guest list
# script guest regs a 0
# answer a halted pass vcpus 1
# want x5=0 x6=0 x7=0 x8=0 x9=0 x10=7000000100000 x11=7000000100000 x12=7000000100000 x13=6000000100004
# want x14=6000000100002 x15=0 x16=0 x17=0 x18=5000000100000 x19=5000000100000 x20=5000000100000
# want x21=5000000100000 x22=5000000100000 x23=4000000100002 x24=7000000101000 x25=5a5 x26=600000010000e
# want state=started
# What a finisher takes and ignores, what it gives, and what it refuses; at last a word whose low half
# counts.
        .include "trap.inc"
main:   lui     x1, 0x100
        li      x2, 0x5555
        li      x3, 0x5554
        li      x25, 0x5a5
        li      x15, 0x5a5                  # so that a 0 below was read
        li      x16, 0x5a5
        li      x17, 0x5a5
        try     x5, sw x3, 0(x1)            # no word of its own
        li      x3, 0x55550000
        try     x6, sw x3, 0(x1)            # the high half alone
        try     x7, sw x2, 4(x1)            # another offset
        li      x4, 0x100ffc
        try     x8, sw x2, 0(x4)
        try     x9, sw x0, 0(x1)
        try     x10, sb x2, 0(x1)           # other widths are refused
        try     x11, sh x2, 0(x1)
        try     x12, sd x2, 0(x1)
        try     x13, sd x2, 4(x1)           # misaligned
        try     x14, sw x2, 2(x1)
        lw      x15, 0(x1)
        lwu     x16, 0(x1)
        lw      x17, 4(x1)
        try     x18, lb x25, 0(x1)
        try     x19, lbu x25, 0(x1)
        try     x20, lh x25, 0(x1)
        try     x21, lhu x25, 0(x1)
        try     x22, ld x25, 0(x1)
        try     x23, lw x25, 2(x1)
        li      x4, 0x101000                # the device that nothing knows isn't there
        try     x24, sw x2, 0(x4)
        try     x26, sw x2, 14(x1)
        li      x2, 0x12345555
        sw      x2, 0(x1)
        j       .
