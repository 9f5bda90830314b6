# run 1
# pages 600
# want frames=603 x5=77 x6=7000080258000 x7=5000080258000 x8=0 x9=66 x10=88
# 600 pages touch two blocks of 2 MiB and one of 1 GiB; memory goes on over the blocks' border.
        .include "trap.inc"
main:   li      x1, 0x80200000              # the border
        li      x2, 0x77
        sd      x2, -8(x1)
        li      x2, 0x66
        sd      x2, 0(x1)
        ld      x5, -8(x1)
        ld      x9, 0(x1)
        li      x1, 0x80258000              # the first byte after the region
        try     x6, sb x2, 0(x1)
        try     x7, lb x2, 0(x1)
        try     x8, sd x2, -8(x1)
        la      x3, code
        li      x1, 0x801ffffc              # code over the border
        lw      x4, 0(x3)
        sw      x4, 0(x1)
        lw      x4, 4(x3)
        sw      x4, 4(x1)
        fence.i
        jalr    x11, 0(x1)
        j       .
code:   li      x10, 0x88
        jr      x11
