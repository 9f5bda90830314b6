# script guest create a trees/two.dtb
# script guest poke a 0x80000000 PROGRAM
# script vserial input a/uart@10000000 5a
# script vserial input a/uart@10001000 5b
# script guest kick a
# script run 1
# script guest regs a 0
# want x5=0 x6=0 x7=400 x8=100 x9=0 x10=fffffffffffffffe x11=ffffffff x12=0 x13=7 x14=0 x15=0 x16=2 x17=0
# want x18=a x19=0 x20=200 x21=0 x22=400 x23=28 x24=a x25=0 x26=400 x27=a x28=0 x29=0 x30=200 x31=0
# The PLIC, without taking its interrupt: two sources, 10 and 40, whose lines are up. What is kept of
# enables, priorities and the threshold; the threshold masks the line and no claim; a priority of 0 is never
# claimed; the greatest priority is claimed, and of equals the least source; what completes nothing; a
# source is pending again after its completion while its line is up, and stays pending when it falls.
        lui     x1, 0xc000                  # priorities, pending, enables, context
        lui     x2, 0xc001
        lui     x3, 0xc002
        lui     x4, 0xc200
        lw      x5, 4(x4)
        lw      x6, 0(x2)
        lui     x29, 0x10000                # the UARTs; the second has a register each four bytes
        lui     x30, 0x10001
        li      x31, 1
        sb      x31, 1(x29)
        lw      x7, 0(x2)
        sb      x31, 4(x30)
        lw      x8, 4(x2)
        lw      x9, 4(x4)                   # none is enabled
        li      x31, -1
        sw      x31, 0(x3)
        sw      x31, 4(x3)
        lw      x10, 0(x3)
        lwu     x11, 4(x3)
        lw      x12, 4(x4)                  # the priorities are 0
        sw      x31, 252(x1)
        lw      x13, 252(x1)                # source 63
        sw      x31, 0(x1)
        lw      x14, 0(x1)                  # there is no source 0, and none 64
        sw      x31, 256(x1)
        lw      x15, 256(x1)
        li      x31, 2
        sw      x31, 40(x1)
        sw      x31, 160(x1)
        li      x31, -6
        sw      x31, 0(x4)
        lw      x16, 0(x4)
        csrr    x17, sip                    # the threshold is 2
        lw      x18, 4(x4)
        lw      x19, 0(x2)
        li      x31, 1
        sw      x31, 0(x4)
        csrr    x20, sip                    # 40 above the threshold of 1
        li      x31, 41
        sw      x31, 4(x4)                  # not in service
        sw      x0, 0(x3)
        li      x31, 10
        sw      x31, 4(x4)                  # not enabled
        li      x31, -1
        sw      x31, 0(x3)
        li      x31, 0x40a
        sw      x31, 4(x4)                  # no source
        lw      x21, 0(x2)
        li      x31, 10
        sw      x31, 4(x4)
        lw      x22, 0(x2)
        li      x31, 3
        sw      x31, 160(x1)
        lw      x23, 4(x4)
        lw      x24, 4(x4)
        lw      x25, 4(x4)
        li      x31, 10
        sw      x31, 4(x4)
        lbu     x0, 0(x29)                  # the line falls
        lw      x26, 0(x2)
        lw      x27, 4(x4)
        sw      x31, 4(x4)
        lw      x28, 0(x2)
        li      x31, 40                     # 40 again, and its line falls by IER
        sw      x31, 4(x4)
        sb      x0, 4(x30)
        csrr    x30, sip
        sw      x0, 4(x3)
        csrr    x31, sip                    # not enabled
        lw      x29, 4(x4)
        j       .
