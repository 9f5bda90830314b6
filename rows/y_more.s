# script guest create a trees/no_plic.dtb
# script guest poke a 0x80000000 PROGRAM
# script vserial input a/uart@10000000 313233
# script guest kick a
# script run 1
# script vserial dump a/uart@10000000
# script vserial input a/uart@10000000 4096*34
# script guest regs a 0
# answer dump a/uart@10000000 lost 0 bytes 1
# answer Q
# answer input a/uart@10000000 4096
# want x3=2 x4=1 x5=1 x6=2 x7=1 x8=4 x9=6 x10=63 x11=61 x12=4 x13=42 x14=60 x15=2 x16=32 x17=60 x18=c1
# want x19=bb x20=b0 x21=c0 x22=4b x23=c1 x24=4 x25=1f x26=fb x27=f x28=ff x29=60 x30=f0 x31=c1
# More of a UART: the empty transmitter is told at a rise of IER's bit 1 and after a byte, not where the bit
# is written again; an overrun without FIFOs replaces the byte; bytes wait while it is in loop; a change of
# FIFOs empties them; the modem's lines, of which RI is told at its end alone; what IER, LCR and MCR keep,
# and registers that can't be written. In loop at the end, so that input waits in the queue.
        lui     x1, 0x10000
        li      x2, 2
        sb      x2, 1(x1)
        lbu     x3, 2(x1)                   # told, and by that cleared
        lbu     x4, 2(x1)
        sb      x2, 1(x1)
        lbu     x5, 2(x1)
        li      x2, 'Q'
        sb      x2, 0(x1)
        lbu     x6, 2(x1)
        lbu     x7, 2(x1)
        li      x2, 7
        sb      x2, 1(x1)
        lbu     x8, 2(x1)                   # 31 is there
        li      x2, 0x10
        sb      x2, 4(x1)
        li      x2, 0x42
        sb      x2, 0(x1)
        lbu     x9, 2(x1)                   # the overrun comes before the byte
        lbu     x10, 5(x1)
        lbu     x11, 5(x1)
        lbu     x12, 2(x1)
        lbu     x13, 0(x1)
        lbu     x14, 5(x1)                  # 32 waits
        lbu     x15, 2(x1)                  # the transmitter is empty since 42
        sb      x0, 4(x1)
        lbu     x16, 0(x1)                  # 33 comes behind it
        li      x2, 1
        sb      x2, 2(x1)
        lbu     x17, 5(x1)                  # 33 is gone
        lbu     x18, 2(x1)
        lbu     x19, 6(x1)                  # DCD, DSR and CTS fell and rose
        lbu     x20, 6(x1)
        li      x2, 8
        sb      x2, 1(x1)
        li      x2, 0x14
        sb      x2, 4(x1)                   # loop, and OUT1, which is RI then
        lbu     x21, 2(x1)
        lbu     x22, 6(x1)
        lbu     x23, 2(x1)
        li      x2, 0x10
        sb      x2, 4(x1)                   # RI falls
        lbu     x24, 6(x1)
        li      x2, 0xff
        sb      x2, 4(x1)
        lbu     x25, 4(x1)
        lbu     x26, 6(x1)                  # all four rise
        sb      x2, 1(x1)
        lbu     x27, 1(x1)
        sb      x2, 3(x1)
        lbu     x28, 3(x1)
        sb      x0, 3(x1)
        sb      x2, 5(x1)
        lbu     x29, 5(x1)
        sb      x2, 6(x1)
        lbu     x30, 6(x1)
        sb      x0, 1(x1)
        lbu     x31, 2(x1)
        j       .
