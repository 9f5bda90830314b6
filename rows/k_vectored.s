# run 1
# want scause=8000000000000001 sepc=8000001c stval=0 sstatus=200000120 pc=80000028 x6=0 stvec=80000025
        la      x5, table
        ori     x5, x5, 1
        csrw    stvec, x5
        csrsi   sip, 2
        csrsi   sie, 2
        csrsi   sstatus, 2
        li      x6, 1               # not run
        nop
table:  j       .
        j       .                   # number 1
        j       .
