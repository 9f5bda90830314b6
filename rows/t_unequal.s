# script guest create a trees/unequal.dtb
# script guest poke a 0x80000000 PROGRAM
# script guest kick a
# script run 1
# script guest regs a 1
# script run 3
# script guest regs a 0
# script guest regs a 1
# script run 2
# script guest regs a 0
# script guest regs a 1
# script run 2
# script guest regs a 0
# script guest regs a 1
# answer created a vcpus 2 regions 1 frames 3
# answer regs a 1 started S pc=0000000080000100
# answer x4=0000000000000000 x5=0000000000000000 x6=0000000000000000 x7=0000000000000000
# answer ran 3 idle 0 now 400
# answer regs a 0 started S pc=0000000080000028
# answer x4=0000000000000000 x5=00000000000001ef x6=0000000000000000 x7=000000000000044c
# answer regs a 1 waiting S pc=0000000080000114
# answer x4=0000000000000000 x5=00000000000004b0 x6=00000000000004b0 x7=0000000000000000
# answer ran 2 idle 0 now 600
# answer regs a 0 started S ...
# answer x4=0000000000000000 x5=000000000000044c x6=0000000000000188 x7=000000000000044c
# answer regs a 1 waiting S pc=0000000080000114
# answer sstatus=0000000200000000 sie=0000000000000002 ssip=0000000000000002 stvec=0000000000000000
# answer ran 2 idle 0 now 800
# answer regs a 0 started S ...
# answer x4=0000000000000000 x5=000000000000044c x6=0000000000000188 x7=000000000000044c
# want state=started x5=4b0 x6=4b0 x20=258 x21=2bc pc=80000200 ssip=2
# VCPU 1 has the greater priority: once it is started, all turns are its own, until it waits after 2,403
# steps, in its third turn. VCPU 0 counts: 10 steps and 495 * 2 in its first turn, 500 * 2 in its second,
# 105 * 2 in its third, then the IPI, 6 steps, and 392 * 2 of another count in the rest of it. That turn
# isn't cut short, but the next ones are those of VCPU 1 (x20 and x21 are their times), while VCPU 0 is
# ready. The start of VCPU 1 in the tree, 0x80000800, doesn't count.
        .include "calls.inc"
        la      x11, second
        li      x10, 1
        li      x12, 0
        li      x17, HART
        li      x16, 0
        ecall
        li      x7, 1100
        nop
1:      addi    x5, x5, 1
        bne     x5, x7, 1b
        call    IPI, 0, 2, 0
1:      addi    x6, x6, 1
        j       1b
        .org    0x100
second: li      x6, 1200
1:      addi    x5, x5, 1
        bne     x5, x6, 1b
        csrwi   sie, 2
        wfi
        rdtime  x20
1:      rdtime  x21
        beq     x20, x21, 1b
        j       last
        .org    0x200
last:   j       .
