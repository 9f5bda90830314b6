# script guest create a trees/alias.dtb
# script guest poke a 0x80000000 PROGRAM
# script guest poke a 0x90001ffc 01020304
# script guest poke a 0x90001ffe 01020304
# script guest poke a 0x90002000 aabb
# script guest kick a
# script run 1
# script guest mem a 0x80002ffc 4
# script guest mem a 0 2
# script guest mem a 0x90000200 8
# script guest mem a 0x80001200 8
# script guest audit a
# script guest regs a 0
# answer created a vcpus 1 regions 7 frames 2072
# answer poked a 4
# answer refused outside
# answer poked a 2
# answer mem a 0000000080002ffc 01020304
# answer mem a 0000000000000000 aabb
# answer mem a 0000000090000200 0900000000000000
# answer mem a 0000000080001200 0900000000000000
# answer audit a 2067
# want x5=77 x6=0 x7=5 x8=0 x9=0 x10=1 x11=7 x12=9 x13=bbaa x14=7000090002000 x15=7000090002000
# want x16=7000090002000 x17=4d x18=4030201 x19=4000090001ffc x20=4d x21=5000090003000 x22=58
# want x23=4d x24=58
# An alias has no bytes of its own: what the one address stores the other reads, and it is one place for
# reservations and for code. It has its target's permission: the second one leads to a ROM.
        .include "trap.inc"
main:   li      x1, 0x90000200
        li      x2, 0x80001200              # the same place
        li      x3, 0x77
        sd      x3, 0(x1)
        ld      x5, 0(x2)
        lr.d    x31, (x2)
        li      x4, 5
        sc.d    x6, x4, (x1)
        ld      x7, 0(x2)
        lr.w    x31, (x1)
        li      x4, 6
        sc.w    x8, x4, (x2)
        lr.d    x31, (x1)
        sd      x4, 0(x2)                   # a store leaves it
        li      x4, 7
        sc.d    x9, x4, (x2)
        lr.d    x31, (x1)
        addi    x31, x2, 8
        sc.d    x10, x4, (x31)              # another place
        li      x4, 2
        amoadd.d x11, x4, (x1)
        ld      x12, 0(x2)
        li      x3, 0x90002000
        lhu     x13, 0(x3)
        try     x14, sh x3, 0(x3)
        lr.w    x31, (x3)
        try     x15, sc.w x31, x3, (x3)
        try     x16, amoor.w x31, x3, (x3)
        lwu     x18, -4(x3)                 # the last bytes of the first alias
        try     x19, ld x31, -4(x3)
        li      x4, 0x1000
        add     x3, x3, x4
        try     x21, lb x31, 0(x3)          # behind the second
        li      x1, 0x90000100
        jalr    x31, 0(x1)                  # code by its alias
        mv      x17, x20
        mv      x23, x20
        li      x2, 0x80001100
        li      x3, 0x05800b13              # li x22, 0x58
        sw      x3, 0(x1)
        fence.i
        jalr    x31, 0(x2)                  # and what was stored by the alias
        mv      x24, x22
        j       .
        .org    0x1100
        li      x20, 0x4d
        jr      x31
