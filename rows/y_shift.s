# script guest create a trees/two.dtb
# script vserial list
# script guest poke a 0x80000000 PROGRAM
# script vserial input a/uart@10001000 5a
# script vserial input a/uart@10000000 69
# script guest kick a
# script run 1
# script vserial dump a/uart@10001000
# script vserial dump a/uart@10000000
# script guest regs a 0
# answer created a vcpus 1 regions 4 frames 4
# answer vserial 2
# answer a/uart@10000000
# answer a/uart@10001000
# answer dump a/uart@10001000 lost 0 bytes 1
# answer b
# answer dump a/uart@10000000 lost 0 bytes 1
# answer a
# want x5=0 x6=61 x7=5a x8=69 x9=0 x10=33 x11=0 x12=0 x13=5000010001000 x14=5000010001004 x15=60 x16=0
# Two UARTs. The second has a register each four bytes; what is between reads 0 and is no store, and so is
# what is behind register 7. Its accesses are of one byte all the same.
        .include "trap.inc"
main:   lui     x1, 0x10000
        lui     x2, 0x10001
        li      x31, 'a'
        sb      x31, 0(x1)
        li      x31, 'b'
        sb      x31, 0(x2)
        sb      x31, 1(x2)
        sb      x31, 32(x2)
        lbu     x5, 5(x2)                   # between registers 1 and 2
        lbu     x6, 20(x2)                  # LSR, with a byte
        lbu     x7, 0(x2)
        lbu     x8, 0(x1)
        lbu     x9, 0(x2)
        li      x31, 0x33
        sb      x31, 28(x2)
        sb      x0, 29(x2)
        sb      x0, 7(x2)
        lbu     x10, 28(x2)                 # the scratch register
        lbu     x11, 31(x2)
        lbu     x12, 32(x2)
        try     x13, lw x31, 0(x2)
        try     x14, lw x31, 4(x2)
        lbu     x15, 20(x2)
        lbu     x16, 2047(x2)
        j       .
