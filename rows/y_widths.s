# script guest create a trees/one.dtb
# script guest poke a 0x80000000 PROGRAM
# script vserial input a/uart@10000000 5a
# script guest kick a
# script run 1
# script vserial dump a/uart@10000000
# script guest regs a 0
# answer dump a/uart@10000000 lost 0 bytes 1
# answer U
# want x5=ffffffffffffff80 x6=80 x7=5000010000006 x8=5000010000006 x9=5000010000004 x10=5000010000004
# want x11=5000010000000 x12=7000010000006 x13=7000010000004 x14=7000010000000 x15=4000010000007
# want x16=4000010000002 x17=4000010000001 x18=4000010000006 x19=4000010000004 x20=6000010000007
# want x21=6000010000002 x22=6000010000004 x23=5000010000100 x24=7000010000100 x25=5a5 x26=5a x27=80
# want x3=ffffffffffffffc1 x4=50000100000fc x31=0
# Accesses of one byte, with both extensions; other widths are refused, and what is misaligned is told
# before. rd and the UART are as they were.
        .include "trap.inc"
main:   lui     x1, 0x10000
        li      x2, 0x11223380
        li      x25, 0x5a5
        try     x31, sb x2, 7(x1)
        lb      x5, 7(x1)                   # the scratch register
        lbu     x6, 7(x1)
        try     x7, lh x25, 6(x1)
        try     x8, lhu x25, 6(x1)
        try     x9, lw x25, 4(x1)
        try     x10, lwu x25, 4(x1)
        try     x11, ld x25, 0(x1)
        try     x12, sh x2, 6(x1)
        try     x13, sw x2, 4(x1)
        try     x14, sd x2, 0(x1)
        try     x15, lh x25, 7(x1)
        try     x16, lw x25, 2(x1)
        try     x17, lhu x25, 1(x1)
        try     x18, lwu x25, 6(x1)
        try     x19, ld x25, 4(x1)
        try     x20, sh x2, 7(x1)
        try     x21, sw x2, 2(x1)
        try     x22, sd x2, 4(x1)
        try     x23, lb x25, 256(x1)        # behind its region
        try     x24, sb x2, 256(x1)
        try     x4, lw x25, 252(x1)         # its last four bytes
        lbu     x26, 0(x1)                  # 5a is still there
        lbu     x27, 7(x1)
        li      x3, 0xc1
        sb      x3, 2(x1)
        lb      x3, 2(x1)                   # IIR with FIFOs on
        li      x2, 'U'
        sb      x2, 0(x1)
        sb      x2, 8(x1)                   # no register
        sb      x2, 255(x1)
        j       .
