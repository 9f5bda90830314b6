# run 1
# want x6=7000080001000 x7=0 x8=6000080000404 x9=0 x10=5000080001000 x11=0 x12=1 x13=1
# want x14=1 x15=0 x16=0 x17=20000ffffffff x18=0
        .include "trap.inc"
main:   la      x5, cell
        .irp    n, 6, 7, 8, 9, 10, 11, 12, 13, 14, 15, 16, 17, 18
        li      x\n, 0x5a5                 # so that a 0 below was written
        .endr
        addi    x20, x5, 8
        addi    x21, x5, 4
        li      x22, 0x80001000
        lr.d    x0, (x5)
        try     x6, sc.d x31, x0, (x22)     # a trap leaves the reservation: SC.D in a hole
        sc.d    x7, x0, (x5)
        lr.d    x0, (x5)
        try     x8, sc.d x31, x0, (x21)     # likewise misaligned
        sc.d    x9, x0, (x5)
        lr.d    x0, (x5)
        try     x10, lr.d x31, (x22)        # an LR.D that traps sets none
        sc.d    x11, x0, (x5)
        lr.d    x0, (x5)
        sc.d    x12, x0, (x20)              # another cell: it fails, and clears
        sc.d    x13, x0, (x5)
        lr.d    x0, (x5)
        lr.d    x0, (x20)                   # one reservation at most
        sc.d    x14, x0, (x5)
        lr.d    x0, (x5)
        lr.d    x0, (x20)
        sc.d    x15, x0, (x20)
        lr.d    x0, (x5)
        amoadd.d x0, x0, (x5)               # an AMO leaves it
        sc.d    x16, x0, (x5)
        lr.d    x0, (x5)
        try     x17, .word 0xffffffff       # trap and SRET leave it
        sc.d    x18, x0, (x5)
        j       .
        .org    0x400
cell:   .dword  0, 0
