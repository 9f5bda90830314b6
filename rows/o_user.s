# run 1
# want x5=2000010002ff3 x6=2000014001073 x7=20000c0102ff3 x8=2000010200073 x9=2000010500073
# want x10=2000012000073 x11=8000000000000 x12=3000080000404 x13=2000010406073 x14=2000080002ff3
# want x15=20000c0101073 x16=2000000000000 x17=2000012418073 x18=0 x19=0 x20=0 x21=20000c0002ff3
# want x22=2000012200073 x23=2000030200073 x31=5a5 mode=U sstatus=200000020 scounteren=0
        .include "trap.inc"
main:   li      x31, 0x5a5
        la      x1, user
        csrw    sepc, x1
        sret
user:   try     x5, .word 0x10002ff3        # csrr x31, sstatus
        try     x6, .word 0x14001073        # csrw sscratch, x0
        try     x7, .word 0xc0102ff3        # csrr x31, time: scounteren bit 1 is 0
        try     x8, sret
        try     x9, wfi
        try     x10, sfence.vma
        try     x11, ecall
        j       fixed
        .org    0x400
fixed:  li      x30, 0
        ebreak                              # 0x404
        mv      x12, x30
        try     x13, .word 0x10406073       # csrrsi x0, sie, 0: writes nothing, refused all the same
        try     x14, .word 0x80002ff3       # csrr x31, 0x800
        try     x15, .word 0xc0101073       # csrw time, x0
        try     x16, .word 0x00000000
        try     x17, sfence.vma x3, x4
        try     x18, fence
        try     x19, fence.i
        la      x2, cell
        try     x20, lr.d x0, (x2)          # memory rows are lawful
        try     x21, .word 0xc0002ff3       # csrr x31, cycle
        try     x22, .word 0x12200073       # sfence.vma x0, x2
        try     x23, .word 0x30200073       # mret: no row
        j       .
        .balign 8
cell:   .dword  0
