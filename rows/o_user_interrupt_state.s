# run 1
# want scause=8 sepc=80000024 stval=0 sstatus=200000020 mode=S pc=80000028 x6=20
# SRET with SPIE 1 sets SIE; the ECALL of U keeps it as SPIE, and SPP 0.
        la      x5, handler
        csrw    stvec, x5
        li      x6, 0x20
        csrw    sstatus, x6
        la      x5, user
        csrw    sepc, x5
        sret
user:   ecall
handler: j      .
