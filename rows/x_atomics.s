# script guest create a trees/one.dtb
# script guest poke a 0x80000000 PROGRAM
# script vserial input a/uart@10000000 5a
# script guest kick a
# script run 1
# script vserial dump a/uart@10000000
# script guest list
# script guest regs a 0
# answer dump a/uart@10000000 lost 0 bytes 0
# answer a running vcpus 1
# want x3=5000010000000 x4=5000010000000 x5=7000010000000 x6=7000010000000 x7=7000010000000 x8=7000010000000
# want x9=1000010000000 x10=500000c200004 x11=500000c200000 x12=700000c200004 x13=700000c200000
# want x14=700000c200004 x15=700000c200000 x16=100000c200004 x17=5000000100000 x18=5000000100000
# want x19=7000000100000 x20=7000000100000 x21=7000000100000 x22=7000000100000 x23=1000000100000
# want x24=a x25=5a x26=1
# LR, SC and AMO of both widths at each device, and a fetch: access faults of the access, and no device is
# asked. Of the UART's register 0 the byte is still there, and nothing was sent; of the PLIC's claim source
# 10 is still to be claimed; the finisher didn't end the guest. A reservation of memory is left by an SC
# that traps.
        .include "jump.inc"

# Seven tries at one device, W at x1 and D at x26.
        .macro  device, r1, r2, r3, r4, r5, r6, r7
        try     \r1, lr.w x31, (x1)
        try     \r2, lr.d x31, (x26)
        try     \r3, sc.w x31, x2, (x1)
        try     \r4, sc.d x31, x2, (x26)
        try     \r5, amoswap.w x31, x2, (x1)
        try     \r6, amoadd.d x31, x2, (x26)
        try     \r7, jalr x27, 0(x1)
        .endm

main:   li      x2, 0x5555
        lui     x1, 0xc000                  # source 10 is enabled, and the UART's line is up
        li      x3, 1
        sw      x3, 40(x1)
        lui     x1, 0xc002
        li      x3, 1024
        sw      x3, 0(x1)
        lui     x1, 0x10000
        li      x3, 1
        sb      x3, 1(x1)
        la      x24, cell
        lr.d    x25, (x24)
        mv      x26, x1
        device  x3, x4, x5, x6, x7, x8, x9
        lui     x26, 0xc200
        addi    x1, x26, 4
        device  x10, x11, x12, x13, x14, x15, x16
        lui     x1, 0x100
        mv      x26, x1
        device  x17, x18, x19, x20, x21, x22, x23
        sc.d    x26, x0, (x24)              # still held
        seqz    x26, x26
        lui     x1, 0xc200
        lw      x24, 4(x1)
        lui     x1, 0x10000
        lbu     x25, 0(x1)
        j       .
        .balign 8
cell:   .dword  0
