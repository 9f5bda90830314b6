# script guest create a trees/no_plic.dtb
# script guest poke a 0x80000000 PROGRAM
# script vserial input a/uart@10000000 5a
# script guest kick a
# script run 1
# script vserial input a/uart@10000000 5b
# script run 3
# script guest regs a 0
# answer created a vcpus 1 regions 4 frames 2071
# answer ran 1 idle 0 now 100
# answer ran 3 idle 3 now 400
# want state=waiting x5=4 x6=0 x7=500000c200004 x8=0 pc=80000060 sie=200
# Without a PLIC a UART's interrupt goes nowhere: its line is up (x5), nothing is pending, and WFI waits for
# ever.
        .include "trap.inc"
main:   lui     x1, 0x10000
        li      x2, 1
        sb      x2, 1(x1)
        lbu     x5, 2(x1)
        csrr    x6, sip
        lui     x3, 0xc200
        try     x7, lw x31, 4(x3)
        li      x2, 0x200
        csrs    sie, x2
        wfi
        li      x8, 1
        j       .
