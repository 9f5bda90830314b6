# run 1
# want state=started ran=1,0,100 ssip=2 sie=2 pc=80000010 x5=1 scause=0 sstatus=200000000
        csrsi   sip, 2
        csrsi   sie, 2
        wfi                         # pending and enabled: it goes on in this turn, whatever SIE is
        li      x5, 1
        j       .
