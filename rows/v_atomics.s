# run 1
# pages 8
# want x29=dff5777 x5=0 x6=0 x7=5 x8=1
# LR is a load, SC and AMO are stores, also where SC would fail. A reservation is of the place: what is reserved
# by one address is stored by another.
        .include "sv39.inc"
        identity
        leads   root, 1, middle, 1              # 0x40000000
        leads   middle, 0, last, 1
        leads   last, 0, data, 0xc7
        leads   last, 1, data, 0x49             # V X A
        leads   last, 2, 0x90000000, 0xc7       # no memory there
        note_causes
        translate
        li      x10, 0x40000000
        li      x11, data
        li      x12, 5
        lr.d    x5, (x10)
        sc.d    x6, x12, (x11)
        ld      x7, 0(x10)
        sc.d    x8, x12, (x11)
        li      x10, 0x40001000
        lr.d    x13, (x10)                      # d
        sc.d    x13, x12, (x10)                 # f
        amoadd.d x13, x12, (x10)                # f
        li      x10, 0x40002000
        lr.d    x13, (x10)                      # 5
        sc.d    x13, x12, (x10)                 # 7
        amoadd.d x13, x12, (x10)                # 7
        sd      x12, 0(x10)                     # 7
        j       .
