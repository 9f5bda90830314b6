# script guest create a trees/one.dtb
# script guest poke a 0x80000000 PROGRAM
# script guest kick a
# script run 81
# script vserial dump a/uart@10000000
# script vserial dump a/uart@10000000
# script guest regs a 0
# answer dump a/uart@10000000 lost 4464 bytes 65536
# answer mnabcdefghijklmnabc...
# answer dump a/uart@10000000 lost 0 bytes 0
# answer
# want x1=0 x2=10000000 ran=81,0,8100
# 70,000 bytes, of which the last 65,536 are kept: 5,000 times the letters a to n. The first 4,464 are 318
# times these and 12 letters more, so that m is the first that is kept. The loop has 16 instructions, so
# 80,000 steps, and 18 before.
        lui     x2, 0x10000
        li      x1, 1000
        li      x3, 5
        mul     x1, x1, x3
        .set    letter, 'a'
        .irp    n, 5, 6, 7, 8, 9, 10, 11, 12, 13, 14, 15, 16, 17, 18
        li      x\n, letter
        .set    letter, letter + 1
        .endr
1:
        .irp    n, 5, 6, 7, 8, 9, 10, 11, 12, 13, 14, 15, 16, 17, 18
        sb      x\n, 0(x2)
        .endr
        addi    x1, x1, -1
        bnez    x1, 1b
        j       .
