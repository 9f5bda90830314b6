# run 1
# want scause=8000000000000001 sepc=80000018 stval=0 sstatus=200000120 pc=80000020 x6=0 ssip=2 mode=S
        la      x5, handler
        csrw    stvec, x5
        csrsi   sip, 2
        csrsi   sie, 2
        csrrsi  x0, sstatus, 2      # the step after this one is the interrupt
        li      x6, 1               # not run
        nop
handler: j      .
