# script guest create a trees/one.dtb
# script guest poke a 0x80000000 PROGRAM
# script guest kick a
# script run 1
# script vserial input a/uart@10000000 000102030405060708090a0b0c0d0e0f10111213
# script run 1
# script guest mem a 0x80001000 20
# script vserial dump a/uart@10000000
# script guest regs a 0
# answer input a/uart@10000000 20
# answer mem a 0000000080001000 000102030405060708090a0b0c0d0e0f10111213
# answer dump a/uart@10000000 lost 0 bytes 0
# want x5=60 x6=1 x7=c1 x8=c4 x9=cc x10=cc x11=c2 x12=c1 x13=d x14=0 x15=1a x16=10 x17=63 x18=61
# A UART from its reset. FIFOs with a trigger of 14; 20 bytes come in, of which 16 have room and four wait,
# so that seven reads leave 13: a timeout. The empty transmitter is told behind it, once. The divisor; the
# modem's lines in loop; an overrun by the seventeenth byte sent in loop.
        lui     x1, 0x10000
        la      x2, place
        lbu     x5, 5(x1)
        lbu     x6, 2(x1)
        li      x3, 0xc1
        sb      x3, 2(x1)
        lbu     x7, 2(x1)
        li      x3, 1
        sb      x3, 1(x1)
1:      lbu     x3, 5(x1)                   # until a byte is there
        andi    x3, x3, 1
        beqz    x3, 1b
        lbu     x8, 2(x1)
        li      x4, 7
        jal     x20, reads
        lbu     x9, 2(x1)
        li      x3, 3
        sb      x3, 1(x1)
        lbu     x10, 2(x1)
        li      x4, 13
        jal     x20, reads
        lbu     x11, 2(x1)
        lbu     x12, 2(x1)
        li      x3, 0x80
        sb      x3, 3(x1)
        li      x3, 0x0d
        sb      x3, 0(x1)
        lbu     x13, 0(x1)
        li      x3, 0x03
        sb      x3, 3(x1)
        lbu     x14, 0(x1)
        li      x3, 0x12
        sb      x3, 4(x1)
        lbu     x15, 6(x1)
        lbu     x16, 6(x1)
        li      x4, 17
2:      sb      x0, 0(x1)
        addi    x4, x4, -1
        bnez    x4, 2b
        lbu     x17, 5(x1)
        lbu     x18, 5(x1)
        j       .
reads:  lbu     x3, 0(x1)                   # x4 bytes of input into memory
        sb      x3, 0(x2)
        addi    x2, x2, 1
        addi    x4, x4, -1
        bnez    x4, reads
        jr      x20
        .org    0x1000
place:  .dword  0, 0, 0
