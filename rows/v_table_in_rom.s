# script guest create a trees/alias.dtb
# script guest poke a 0x80000000 PROGRAM
# script guest poke a 0x1010 0100002400000000
# script guest kick a
# script run 1
# script guest regs a 0
# want satp=8000000000000001 x5=123456789abcdef x6=d000080200000 x7=d000000001010 scause=d mode=S
# Tables are memory that is read: the root is in a ROM, and its entry 2 names a table by an alias of RAM. Entry
# 0 of that is a leaf of 2 MiB, in which the program goes on; it has no entry 1, and the root has no entry 0.
        .include "trap.inc"
main:   li      x1, 8
        slli    x1, x1, 60
        addi    x1, x1, 1
        csrw    satp, x1
        ld      x5, number
        li      x2, 0x80200000
        try     x6, ld x31, 0(x2)
        lui     x2, 0x1
        try     x7, ld x31, 16(x2)
        j       .
        .balign 8
number: .dword  0x0123456789abcdef
        .org    0x1000
        .dword  0x200000cf
