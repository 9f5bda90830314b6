# run 1
# want scause=8000000000000001 sepc=80000028 stval=0 sstatus=200000000 mode=S pc=8000002c x6=0
# In U an interrupt is taken with SIE 0 too.
        la      x5, handler
        csrw    stvec, x5
        csrsi   sip, 2
        csrsi   sie, 2
        la      x5, user
        csrw    sepc, x5
        nop
        sret
user:   li      x6, 1               # not run
handler: j      .
