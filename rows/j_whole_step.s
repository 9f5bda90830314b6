# run 1
# want scause=8000000000000001 sepc=80000018 x6=1f1 x7=0 pc=80000020
# The interrupt is step 7; 993 are left, 497 of them ADDI and 496 jumps.
        la      x5, handler
        csrw    stvec, x5
        csrsi   sip, 2
        csrsi   sie, 2
        csrsi   sstatus, 2
        li      x7, 1               # not run
handler:
        addi    x6, x6, 1
        j       handler
