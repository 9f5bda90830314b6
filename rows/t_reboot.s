# script guest create a trees/eight.dtb
# script guest poke a 0x80000000 PROGRAM
# script guest kick a
# script run 7
# script guest mem a 0x80001000 8
# script guest regs a 1
# answer ran 7 idle 0 now 700
# answer mem a 0000000080001000 0002010002010000
# want state=started x20=1
# A reboot doesn't make last turns forgotten. VCPU 0 starts 2, which has the second turn and starts 1, which
# has the third and reboots. VCPU 0 has the fourth, and starts both. Then the turn is that of 2, whose last
# one is longer ago than that of 1.
        .include "turns.inc"
        li      x20, 0
        note
        li      x5, 0x80001200
        lw      x6, 0(x5)
        bnez    x6, 1f
        start   2, second
        j       2f
1:      start   1, each
        start   2, each
2:      next_turn
        note
        next_turn
        j       .
second: mv      x20, x10
        note
        start   1, third
        j       .
third:  mv      x20, x10
        note
        li      x5, 0x80001200
        sw      x20, 0(x5)
        call    RESET, 0, 1, 0
each:   mv      x20, x10
        note
        j       .
