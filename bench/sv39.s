# The loop of ring.inc under Sv39, which leads each address to itself: code is executed and read, the ring,
# which has a page of its own, is read and written. The tables are three pages between them.
        li      x1, 0x80001000              # the root: its entry 2 names the table at 0x80002000
        li      x2, 0x20000801
        sd      x2, 16(x1)
        li      x1, 0x80002000              # its entry 0 names the table at 0x80003000
        li      x2, 0x20000c01
        sd      x2, 0(x1)
        li      x1, 0x80003000              # V, R, X and A for the code; V, R, W, A and D for the ring
        li      x2, 0x2000004b
        sd      x2, 0(x1)
        li      x2, 0x200010c7
        sd      x2, 32(x1)
        li      x1, 0x80001                 # MODE 8
        li      x2, 8
        slli    x2, x2, 60
        or      x1, x1, x2
        csrw    satp, x1
        sfence.vma
        li      x6, 0x80004000
        .include "ring.inc"
