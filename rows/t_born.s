# script clock 50
# script guest flat a 1
# script guest poke a 0x80000000 PROGRAM
# script guest kick a
# script run 3
# script guest regs a 0
# answer clock 50
# answer ran 3 idle 2 now 350
# want state=waiting x18=0 x19=20 x20=1 x21=0 x22=0 sie=20 timer=ffffffffffffffff pc=80000800 scause=0
# want sstatus=200000000
# A guest that is born at clock 50 sets its timer to 0, which is its time: it is pending at once (x19),
# where it wasn't before (x18). With sie 0x20 and SIE 0 a WFI goes on (x20), and no trap is taken. With 2^64
# - 1 the timer isn't pending (x21), the WFI ends the turn, and later turns are idle.
        .include "calls.inc"
        csrr    x18, sip
        call    TIME, 0, 0
        csrr    x19, sip
        li      x5, 0x20
        csrw    sie, x5
        wfi
        li      x20, 1
        call    TIME, 0, -1
        csrr    x21, sip
        j       last
        .org    0x7fc
last:   wfi
        li      x22, 1
        j       .
