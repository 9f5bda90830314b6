# script clock 50
# script guest flat a 1
# script guest poke a 0x80000000 PROGRAM
# script guest kick a
# script tick 49
# script run 1
# script guest regs a 0
# script tick 1
# script run 2
# script guest regs a 0
# answer ran 1 idle 0 now 99
# answer x20=0000000000000000 x21=0000000000000000 x22=0000000000000000 x23=0000000000000000
# answer ran 2 idle 0 now 101
# want x10=0 x11=0 x18=0 x19=31 x20=0 x21=32 x22=20 timer=32 state=started
# A guest that is born at clock 50 sets its timer to 50 at that clock: it isn't pending, since guest time is 0
# (x18). Nor is it in the next turn, at time 49 (x19, x20); in the one after, at 50, it is (x21, x22).
        .include "calls.inc"
        call    TIME, 0, 50
        csrr    x18, sip
        rdtime  x5
1:      rdtime  x19
        beq     x5, x19, 1b
        csrr    x20, sip
1:      rdtime  x21
        beq     x19, x21, 1b
        csrr    x22, sip
        j       .
