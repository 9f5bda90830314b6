# run 1
# want scause=1 sepc=20000000000 stval=20000000000 pc=80000018 x1=80000018 sstatus=200000100
        la      x5, handler
        csrw    stvec, x5
        li      x6, 1
        slli    x6, x6, 41
        jalr    x1, 0(x6)           # the jump retires; the fetch after it raises
handler: j      .
