# run 1
# want scause=8000000000000001 sepc=100 stval=0 sstatus=200000120 mode=S pc=80000030
# SRET to S sets SIE from SPIE; the interrupt comes before the fetch from the hole at 0x100.
        la      x5, handler
        csrw    stvec, x5
        csrsi   sip, 2
        csrsi   sie, 2
        li      x5, 0x100
        csrw    sepc, x5
        li      x6, 0x120           # SPP and SPIE
        csrw    sstatus, x6
        nop
        sret
        nop
handler: j      .
