# run 1
# want x5=20000c0101073 x6=0 x7=0 x8=20000c0112073 x9=0 x10=20000c010e073 x11=0 x12=20000c0105073
# want x13=20000c0113073 x14=2000080001073 x15=20000c0002ff3 x16=20000c0202ff3 x17=2000014d02ff3
# want x18=2000030002ff3 x19=2000060002ff3 x20=2000010102ff3 x21=2000010302ff3 x22=2000014502ff3
# want x23=20000f1402ff3 x24=20000c0102ff3 x25=2000010004073 x26=2000000002ff3 x27=2000018102ff3
# want x31=5a5
        .include "trap.inc"
main:   li      x31, 0x5a5
        li      x2, 0
        try     x5, .word 0xc0101073        # csrrw x0, time, x0
        try     x6, .word 0xc01020f3        # csrrs x1, time, x0: lawful
        try     x7, .word 0xc01030f3        # csrrc x1, time, x0: lawful
        try     x8, .word 0xc0112073        # csrrs x0, time, x2: x2 holds 0, yet it is a write
        try     x13, .word 0xc0113073       # csrrc x0, time, x2
        try     x9, .word 0xc0106073        # csrrsi x0, time, 0: lawful
        try     x10, .word 0xc010e073       # csrrsi x0, time, 1
        try     x11, .word 0xc0107073       # csrrci x0, time, 0: lawful
        try     x12, .word 0xc0105073       # csrrwi x0, time, 0
        try     x14, .word 0x80001073       # csrrw x0, 0x800, x0
        try     x15, .word 0xc0002ff3       # cycle
        try     x16, .word 0xc0202ff3       # instret
        try     x17, .word 0x14d02ff3       # 0x14d
        try     x18, .word 0x30002ff3       # 0x300
        try     x19, .word 0x60002ff3       # 0x600
        try     x20, .word 0x10102ff3       # the numbers next to those that are there
        try     x21, .word 0x10302ff3
        try     x22, .word 0x14502ff3
        try     x27, .word 0x18102ff3
        try     x23, .word 0xf1402ff3
        try     x25, .word 0x10004073       # funct3 4: no row
        try     x26, .word 0x00002ff3       # number 0
        la      x1, user                    # and time in U, where scounteren is 0
        csrw    sepc, x1
        sret
user:   try     x24, .word 0xc0102ff3
        j       .
