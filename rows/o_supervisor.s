# run 1
# want x5=3000080000404 x6=0 x7=0 x8=0 x9=0 x10=fffffffffffffffe x11=0 x31=5a5 mode=S
# want sstatus=200000020
        .include "trap.inc"
main:   li      x31, 0x5a5
        li      x10, 7
        li      x11, 8
        j       fixed
        .org    0x400
fixed:  li      x30, 0
        ebreak                              # 0x404
        mv      x5, x30
        try     x6, sfence.vma
        try     x7, sfence.vma x3, x4
        try     x8, ecall
        la      x1, there
        csrw    sepc, x1
        li      x2, 0x100
        csrw    sstatus, x2                 # SPP: SRET stays in S
        li      x30, 0
        sret
there:  mv      x9, x30
        csrr    x4, sstatus                 # refused in U
        j       .
