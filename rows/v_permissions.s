# run 1
# pages 8
# want x29=dffffddfdddd x5=0 x6=0 x7=0 x8=0
# One page under many leaves: what each refuses, by the last digit of the cause, d a load's page fault and f a
# store's. What is allowed loads 0.
        .include "sv39.inc"
        identity
        leads   root, 1, middle, 1              # 0x40000000
        leads   middle, 0, last, 1
        leads   last, 0, data, 0x49             # V X A
        leads   last, 1, data, 0x43             # V R A
        leads   last, 2, data, 0x47             # V R W A, no D
        leads   last, 3, data, 0x87             # V R W D, no A
        leads   last, 4, data, 0xd7             # V R W U A D
        leads   last, 5, data, 0xc5             # V W A D, no R
        entry   last, 6, (data >> 2) | 0xc7 | (1 << 54)
        leads   last, 7, data, 0xc6             # no V
        leads   last, 8, data, 1                # a pointer on the last level
        note_causes
        translate
        li      x10, 0x40000000
        li      x5, -1
        li      x6, -1
        li      x7, -1
        li      x8, -1
        ld      x5, 0(x10)                      # d: X is not R
        sd      x0, 0(x10)                      # f
        li      x11, 1 << 19
        csrs    sstatus, x11                    # MXR
        ld      x5, 0(x10)
        sd      x0, 0(x10)                      # f
        li      x12, 0x1000
        add     x10, x10, x12
        ld      x6, 0(x10)
        sd      x0, 0(x10)                      # f
        add     x10, x10, x12
        ld      x7, 0(x10)
        sd      x0, 0(x10)                      # f: no D
        add     x10, x10, x12
        ld      x9, 0(x10)                      # d: no A
        add     x10, x10, x12
        ld      x9, 0(x10)                      # d: a page of U
        sd      x0, 0(x10)                      # f
        li      x11, 1 << 18
        csrs    sstatus, x11                    # SUM
        ld      x8, 0(x10)
        sd      x0, 0(x10)
        add     x10, x10, x12
        ld      x9, 0(x10)                      # d: W without R
        add     x10, x10, x12
        ld      x9, 0(x10)                      # d: a reserved bit
        add     x10, x10, x12
        ld      x9, 0(x10)                      # d: not valid
        add     x10, x10, x12
        ld      x9, 0(x10)                      # d: a pointer on the last level
        j       .
