# run 1
# want scause=1 sepc=80001000 stval=80001000 pc=80000010 x7=1
        la      x5, handler
        csrw    stvec, x5
        j       last
handler: j      .
        .org    0xffc
last:   li      x7, 1
