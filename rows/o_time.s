# run 3
# want x5=0 x6=64 x7=c8 x8=20000c0101073 x9=20000c0105073 x10=0 x12=20000c0143073 x13=0 mode=U
# want scounteren=2 ran=3,0,300
        .include "trap.inc"
main:   li      x1, -1
        csrw    scounteren, x1              # keeps bit 1 alone
        la      x1, user
        csrw    sepc, x1
        li      x3, 0x2a
        sret
user:   csrr    x5, time                    # the clock where the turn starts
1:      csrr    x6, time
        beqz    x6, 1b
2:      csrr    x7, time
        beq     x7, x6, 2b
        try     x8, .word 0xc0101073        # csrrw x0, time, x0
        try     x9, .word 0xc0105073        # csrrwi x0, time, 0
        try     x10, .word 0xc0106073       # csrrsi x0, time, 0: writes nothing
        li      x2, 0
        try     x12, .word 0xc0143073       # csrrc x0, time, x8
        try     x13, .word 0xc0107073       # csrrci x0, time, 0
        j       .
