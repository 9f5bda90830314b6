# run 1
# want scause=3 sepc=80000010 stval=80000010 sstatus=200000100 pc=80000014 stvec=80000015
# An exception goes to BASE also where stvec's low bits are 1.
        la      x5, table
        ori     x5, x5, 1
        csrw    stvec, x5
        ebreak
table:  j       .
        j       .
        j       .
        j       .
