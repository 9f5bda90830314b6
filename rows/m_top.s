# script guest create a trees/top.dtb
# script guest poke a 0x80000000 PROGRAM
# script guest poke a 0x1fffffffffc 93025000
# script guest poke a 0x1fffffffffc 9302500000
# script guest kick a
# script run 1
# script guest mem a 0x1fffffffff0 16
# script guest audit a
# script guest regs a 0
# answer created a vcpus 1 regions 2 frames 6
# answer poked a 4
# answer refused outside
# answer mem a 000001fffffffff0 efcdab89674523010000000093025000
# answer audit a 2
# want x5=5 x6=5020000000000 x7=7020000000000 x8=123456789abcdef x9=1020000000000
# Two pages of memory, in different blocks of 1 GiB; the second is the last below 2^41. Its last word runs,
# and the fetch behind it faults, as loads and stores do there.
        .include "jump.inc"
main:   li      x1, 1
        slli    x1, x1, 41
        ld      x8, number
        sd      x8, -16(x1)
        ld      x8, -16(x1)
        try     x6, lb x31, 0(x1)
        try     x7, sb x31, 0(x1)
        try     x9, jalr x27, -4(x1)
        j       .
        .balign 8
number: .dword  0x0123456789abcdef
