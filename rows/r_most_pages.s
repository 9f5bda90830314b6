# run 1
# pages 16287
# want frames=16320 x5=77 x6=7000083f9f000 x7=1000083f9f000
# The largest region that fits into 64 MiB: 16,287 pages and 33 tables. Its last number, and what follows.
        .include "trap.inc"
main:   li      x1, 0x83f9f000
        li      x2, 0x77
        sd      x2, -8(x1)
        ld      x5, -8(x1)
        try     x6, sd x2, 0(x1)
        la      x3, stop
        csrw    stvec, x3
        jr      x1
stop:   csrr    x7, scause
        slli    x7, x7, 48
        csrr    x8, stval
        or      x7, x7, x8
        j       .
