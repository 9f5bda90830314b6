# run 1
# want x10=0 x11=2 x8=0 x9=44 scause=0 sepc=0 x17=10 x16=1
        la      x5, cell
        li      x9, 0x44
        li      x8, 9
        li      x10, 5
        li      x11, 6
        li      x17, 0x10
        li      x16, 1
        lr.d    x6, (x5)
        ecall                       # of S: the implementation's number; no trap is taken
        sc.d    x8, x9, (x5)
        ld      x9, 0(x5)
        j       .
        .balign 8
cell:   .dword  0x33
