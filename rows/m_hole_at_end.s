# run 1
# want scause=7 stval=fffffffffffffff8 sepc=80000010 pc=80000014
        la      x5, handler
        csrw    stvec, x5
        nop
        sd      x0, -8(x0)          # the address is the sum modulo 2^64
handler: j      .
