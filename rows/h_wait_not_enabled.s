# run 2
# want state=waiting ran=2,1,200 ssip=2 sie=220 pc=80000010 x5=220
        csrsi   sip, 2              # pending, but only 5 and 9 are enabled
        li      x5, 0x220
        csrw    sie, x5
        wfi
        li      x5, 1
        j       .
