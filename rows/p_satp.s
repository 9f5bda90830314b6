# run 1
# pages 2
# want x5=0 x11=0 x6=80001 x7=80001 x8=80001 x9=80001 x10=80003 x13=8000000000080001 x14=8000000000080001
# want x15=80001 x16=1 satp=1 scause=0
# A write with another MODE than 0 and 8 has no effect, by set and clear rows too. ASID reads 0 in both modes.
        .include "sv39.inc"
        identity
        li      x2, 9
        slli    x2, x2, 60
        li      x1, 0x80001
        li      x3, 0x70007
        or      x3, x3, x2
        li      x11, 0x5a5
        csrrw   x5, satp, x3
        csrr    x11, satp                   # the PPN didn't come in either
        csrw    satp, x1
        csrrw   x6, satp, x3
        csrrs   x7, satp, x2
        li      x4, 2
        or      x3, x2, x4
        csrrc   x8, satp, x3                # 0x80001 & ~(MODE 9 and 2): MODE stays 0
        csrrsi  x9, satp, 2
        csrrci  x10, satp, 2
        li      x2, 0x8ffff                 # MODE 8 and all of ASID
        slli    x2, x2, 44
        or      x2, x2, x1
        csrw    satp, x2
        csrr    x13, satp
        csrrc   x14, satp, x2               # MODE 8 and the PPN go
        csrw    satp, x1
        csrr    x15, satp
        li      x2, 0xffff
        slli    x2, x2, 44
        addi    x2, x2, 1
        csrw    satp, x2
        csrr    x16, satp
        j       .
