# script guest create a trees/whole.dtb
# script guest poke a 0x80000000 PROGRAM
# script guest kick a
# script tick 7
# script run 6
# script guest regs a 0
# script guest regs a 1
# script run 10
# script guest regs a 0
# script guest regs a 1
# answer ran 6 idle 3 now 42
# answer regs a 0 waiting S pc=0000000080000804
# answer satp=0000000000000000 scounteren=0000000000000000 senvcfg=0000000000000000 timer=000000000000002b
# answer regs a 1 suspended S ...
# answer satp=0000000000000000 scounteren=0000000000000000 senvcfg=0000000000000000 timer=0000000000000050
# answer ran 10 idle 8 now 112
# answer regs a 0 waiting S pc=0000000080000884
# answer x20=0000000000000031 x21=0000000000000020 x22=0000000000000000 x23=0000000000000000
# answer regs a 1 waiting S pc=0000000080000d04
# want x20=23 x21=8000000000000005 x22=80000c04 x23=0 x24=54 x25=8000000000000005 x26=80000cc0 x27=2
# want x29=0 x28=1 sstatus=200000022 sie=20 timer=ffffffffffffffff
# Two timers, and a turn each 7. VCPU 0 waits for time 43 with SIE 0: its WFI goes on, without a trap, at 49
# (x20), the first turn's time from then on. VCPU 1 waits for 35, and then, suspended, for 80, with SIE 1:
# in its turns at 35 and 84 the handler comes first, with sepc behind the WFI (x22) and behind the call
# (x26, where x28 is set only then: x29 is its value before); the call's answer is there already (x23).
        .include "calls.inc"
        start   1, second
        call    TIME, 0, 43
        li      x5, 0x20
        csrw    sie, x5
        j       1f
        .org    0x800
1:      wfi
        rdtime  x20
        csrr    x21, sip
        call    TIME, 0, -1
        j       1f
        .org    0x880
1:      wfi
        j       .
        .org    0x900
second: la      x5, handler
        csrw    stvec, x5
        li      x5, 0x20
        csrw    sie, x5
        csrsi   sstatus, 2
        call    TIME, 0, 35
        j       1f
        .org    0xc00
1:      wfi
        li      x10, 0
        li      x11, 8
        li      x17, HART
        li      x16, 3
        li      x28, 0
        li      x23, 8
        j       1f
        .org    0xcbc
1:      ecall
        li      x28, 1
        j       1f
        .org    0xd00
1:      wfi
        j       .
        .balign 4
handler:
        addi    x27, x27, 1
        addi    x5, x27, -2
        beqz    x5, 1f
        rdtime  x20
        csrr    x21, scause
        csrr    x22, sepc
        call    TIME, 0, 80
        sret
1:      rdtime  x24
        csrr    x25, scause
        csrr    x26, sepc
        mv      x23, x11
        mv      x29, x28
        call    TIME, 0, -1
        sret
