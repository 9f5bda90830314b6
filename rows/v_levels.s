# run 1
# pages 600
# want x5=1122334455667788 x6=1122334455667788 x7=77 x8=77 x9=ffffffffffffff88 x29=d
# Three levels, two, and one of one page: what is stored by one address is loaded by another. A leaf of 2 MiB
# whose page number isn't a multiple of 512 is a page fault.
        .include "sv39.inc"
        identity
        leads   root, 1, middle, 1              # 0x40000000
        leads   middle, 0, last, 1
        leads   last, 5, data, 0xc7             # V R W A D
        leads   middle, 1, 0x80200000, 0xc7
        leads   middle, 2, 0x80001000, 0xc7     # not a multiple of 2 MiB
        note_causes
        translate
        li      x10, 0x40005008
        li      x11, 0x1122334455667788
        sd      x11, 0(x10)
        ld      x5, 0(x10)
        li      x12, data + 8
        ld      x6, 0(x12)
        li      x10, 0x40212345
        li      x12, 0x80212345
        li      x11, 0x77
        sb      x11, 0(x12)
        lbu     x7, 0(x10)
        lb      x8, 0(x10)
        li      x10, 0x40005008
        lb      x9, 0(x10)
        li      x10, 0x40400000
        lb      x9, 0(x10)                      # page fault: x9 stays
        j       .
