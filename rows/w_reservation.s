# script guest create a trees/whole.dtb
# script guest poke a 0x80000000 PROGRAM
# script guest kick a
# script run 5
# script guest mem a 0x80001000 24
# script guest regs a 1
# script guest regs a 0
# answer ran 5 idle 0 now 500
# answer mem a 0000000080001000 110000000000000033000000000000005500000000000000
# answer regs a 1 started ...
# answer x20=0000000000000001 x21=0000000000000055 x22=0000000000000001 x23=0000000000000000
# want x20=0 x21=1 x22=0 x23=22 state=started
# A reservation and two VCPUs. Calls leave it: LR.D, hart_start, an IPI, SC.D (x20 is 0). Then VCPU 0
# reserves the second word to the end of its turn. VCPU 1's first step is an SC.D there, which fails (its
# x20), since it has no reservation; it stores there. In its next turn VCPU 0's SC.D fails (x21), and a pair
# of its own succeeds (x22). VCPU 1 reserves the third word to the end of its turn; nobody stores there, and
# its SC.D in the next one fails all the same (its x22).
        .include "calls.inc"
        li      x5, 0x80001000
        li      x6, 0x11
        lr.d    x0, (x5)
        start   1, second, 0x80001008
        call    IPI, 0, 2, 0
        sc.d    x20, x6, (x5)
        addi    x5, x5, 8
        lr.d    x0, (x5)
1:      ld      x7, 0x100(x5)
        beqz    x7, 1b
        li      x6, 0x44
        sc.d    x21, x6, (x5)
        lr.d    x23, (x5)
        addi    x6, x23, 0x11
        sc.d    x22, x6, (x5)
        sd      x6, 0x108(x5)
        j       .
second: sc.d    x20, x10, (x11)
        li      x6, 0x22
        sd      x6, 0(x11)
        addi    x12, x11, 8
        li      x6, 0x55
        sd      x6, 0(x12)
        lr.d    x21, (x12)
        sd      x6, 0x100(x11)
1:      ld      x7, 0x108(x11)
        beqz    x7, 1b
        sc.d    x22, x7, (x12)
        j       .
