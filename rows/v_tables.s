# run 1
# pages 8
# want x29=ddd57ddd5 x5=0
# Entries: of a table that isn't memory, pointers with A, D or U, an address that isn't canonical on either side,
# and the last one that is. G doesn't count.
        .include "sv39.inc"
        identity
        leads   root, 0, middle, 0x41           # a pointer with A
        leads   root, 1, middle, 0x81           # D
        leads   root, 3, middle, 0x11           # U
        leads   root, 4, 0x90000000, 1          # a table without memory
        leads   root, 5, middle, 0x21           # G
        leads   middle, 0, last, 0x21
        leads   last, 0, data, 0xe7
        leads   root, 255, middle, 0
        note_causes
        translate
        li      x10, 1
        ld      x9, 0(x0)                       # d
        slli    x11, x10, 30
        ld      x9, 0(x11)                      # d
        li      x11, 0xc0000000
        ld      x9, 0(x11)                      # d
        slli    x11, x10, 32
        ld      x9, 0(x11)                      # 5
        sd      x9, 0(x11)                      # 7
        li      x11, 0x140000000
        ld      x5, 0(x11)
        slli    x11, x10, 38
        ld      x9, 0(x11)                      # d: bits 63:39 are 0, bit 38 is 1
        li      x11, -1
        slli    x11, x11, 39
        ld      x9, 0(x11)                      # d: the other way round
        slli    x11, x10, 38
        addi    x11, x11, -8
        ld      x9, 0(x11)                      # d: canonical, and its entry isn't valid
        li      x11, 0x90000000
        ld      x9, 0(x11)                      # 5: led to no memory
        j       .
