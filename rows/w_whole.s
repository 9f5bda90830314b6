# script guest create a trees/whole.dtb
# script vserial list
# script guest poke a 0x80000000 PROGRAM
# script vserial input a/uart@10000000 5a
# script guest kick a
# script run 4
# script guest list
# script vserial dump a/uart@10000000
# script guest audit a
# script guest regs a 0
# script guest regs a 1
# answer created a vcpus 2 regions 5 frames 2071
# answer vserial 1
# answer a/uart@10000000
# answer input a/uart@10000000 1
# answer ran 4 idle 2 now 400
# answer guests 1
# answer a halted pass vcpus 2
# answer dump a/uart@10000000 lost 0 bytes 2
# answer HZ
# answer audit a 2064
# answer regs a 0 waiting S pc=0000000080000804
# want state=started x20=7000000000000 x21=0 x22=0 x23=7000000000000 x24=61 x25=5a x26=0 pc=80000a04
# A guest with each device and two VCPUs. The first one sends H, starts the second, and waits for nothing.
# The second one stores to the ROM, which is cause 7 (x20, as cause * 2^48 + stval); reserves there, without
# a trap (x21, x22); stores by an entry of its root that leads to a table in the UART, which is cause 7 too
# (x23) and takes no byte out of it (x24, x25); sends that byte, and ends the guest by the finisher. 2,048 +
# 16 pages are audited.
        .include "calls.inc"
        lui     x5, 0x10000
        li      x6, 'H'
        sb      x6, 0(x5)
        start   1, second
        j       1f
        .org    0x800
1:      wfi
        j       .
second: .include "trap.inc"
main:   .include "sv39.inc"
        lui     x5, 0x10000
        try     x20, sd x0, 0(x0)
        try     x21, lr.d x22, (x0)
        leads   root, 0, 0x10000000, 1
        identity
        translate
        try     x23, sd x0, 0(x0)
        csrw    satp, x0
        lbu     x24, 5(x5)
        lbu     x25, 0(x5)
        sb      x25, 0(x5)
        lui     x6, 0x100
        li      x7, 0x5555
        j       finish
        .org    0xa00
finish: sw      x7, 0(x6)
        li      x26, 1
        j       .
