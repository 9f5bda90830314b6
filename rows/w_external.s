# script guest create a trees/whole.dtb
# script guest poke a 0x80000000 PROGRAM
# script guest kick a
# script run 3
# script guest regs a 0
# script guest regs a 1
# script vserial input a/uart@10000000 5a
# script run 2
# script guest regs a 0
# script guest regs a 1
# script vserial input a/uart@10000000 6162
# script run 2
# script guest regs a 0
# script guest regs a 1
# script vserial input a/uart@10000000 63
# script run 3
# script vserial dump a/uart@10000000
# script guest regs a 0
# script guest regs a 1
# answer ran 3 idle 1 now 300
# answer regs a 0 waiting S ...
# answer regs a 1 waiting S pc=0000000080000804
# answer ran 2 idle 1 now 500
# answer regs a 0 waiting S ...
# answer x20=0000000000000000 x21=0000000000000000 x22=0000000000000000 x23=0000000000000000
# answer regs a 1 waiting S pc=0000000080000804
# answer x20=0000000000000200 x21=000000000000000a x22=0000000000000000 x23=0000000000000001
# answer ran 2 idle 1 now 700
# answer regs a 0 waiting S ...
# answer x20=0000000000000200 x21=000000000000000a x22=0000000000000000 x23=0000000000000061
# answer regs a 1 waiting S pc=0000000080000804
# answer x20=0000000000000200 x21=000000000000000a x22=0000000000000000 x23=0000000000000001
# answer ran 3 idle 1 now 1000
# answer dump a/uart@10000000 lost 0 bytes 2
# answer Zc
# answer regs a 0 waiting S ...
# answer x24=0000000000000062 x25=0000000000000000 x26=0000000000000200 x27=0000000000000000
# want x20=200 x21=0 x22=a x23=2 x24=0 x25=0 x26=8000000000000009 x27=80000804 state=waiting
# The UART's interrupt for VCPU 1, by its context of the PLIC, while context 0 doesn't enable it: VCPU 1 is
# woken, and not VCPU 0, though both wait for it. VCPU 1's handler claims nothing by context 0 (x22), and 10
# by its own (x21); then it is pending no more (x24), which a completion by context 0 doesn't change. At its
# end it enables the source for context 0 too. Of two more bytes both VCPUs are woken; the turn is that of
# VCPU 0, whose last one is longer ago. It claims 10 by its own context (x21), nothing by the other one
# (x22), reads both bytes, and completes by the other context; so VCPU 1 has nothing to do. Then VCPU 0 sets
# the threshold of context 1, and the fourth byte comes to VCPU 0 alone, though VCPU 1 would have the turn
# if both were ready; it clears the threshold and waits with nothing enabled, and VCPU 1's handler takes the
# byte: this time by the claim of context 0, so that its own one finds nothing.
        .include "calls.inc"
        lui     x1, 0x10000                 # the UART, the PLIC, enables, the contexts 0 and 1
        lui     x2, 0xc000
        lui     x3, 0xc002
        lui     x4, 0xc200
        lui     x5, 0xc201
        li      x6, 1
        li      x7, 0x200
        csrw    sie, x7
        start   1, second
        wfi
        csrr    x20, sip
        lw      x21, 4(x4)
        lw      x22, 4(x5)
        lbu     x23, 0(x1)
        lbu     x24, 0(x1)
        sw      x21, 4(x5)
        sw      x6, 0(x5)
        csrr    x25, sip
        wfi
        csrr    x26, sip
        csrw    sie, x0
        sw      x0, 0(x5)
        wfi
        j       .
second: lui     x1, 0x10000
        lui     x2, 0xc000
        lui     x3, 0xc002
        lui     x4, 0xc200
        lui     x5, 0xc201
        li      x6, 1
        li      x7, 1024
        sw      x6, 40(x2)
        sw      x7, 0x80(x3)
        sb      x6, 1(x1)
        la      x8, handler
        csrw    stvec, x8
        li      x8, 0x200
        csrw    sie, x8
        csrsi   sstatus, 2
        j       again
        .org    0x800
again:  wfi
        j       again
        .balign 4
handler:
        csrr    x20, sip
        lw      x22, 4(x4)
        lw      x21, 4(x5)
        csrr    x24, sip
        lbu     x8, 0(x1)
        sb      x8, 0(x1)
        sw      x21, 4(x4)
        csrr    x26, scause
        csrr    x27, sepc
        sw      x21, 4(x5)
        csrr    x25, sip
        addi    x23, x23, 1
        sw      x7, 0(x3)
        sret
