# script guest create a trees/eight.dtb
# script guest poke a 0x80000000 PROGRAM
# script guest kick a
# script run 17
# script guest mem a 0x80001000 17
# script guest regs a 5
# answer ran 17 idle 1 now 1700
# answer mem a 0000000080001000 0004040102030607000102030607050500
# want state=stopped x20=5 x21=2
# VCPU 0 starts all others, the last ones first, and each notes two turns and stops itself. VCPU 4 has the
# greatest priority, and the second turn and the third; then those of priority 3 go in turn: at first 1, 2,
# 3, 6 and 7, which have had none, then 0, whose turn was the first one; VCPU 5, of priority 0, has its two
# when no other is ready.
        .include "turns.inc"
        li      x20, 0
        .irp    n, 7, 6, 5, 4, 3, 2, 1
        start   \n, each
        .endr
        j       1f
each:   mv      x20, x10
1:      note
        addi    x21, x21, 1
        next_turn
        note
        addi    x21, x21, 1
        call    HART, 1
        j       .
