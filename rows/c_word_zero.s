# run 1
# want scause=1 sepc=0 stval=0 pc=0 stvec=0 sstatus=200000100
# The word 0 has no row; its handler is at 0, a hole, and each further step raises the same there.
        .word   0x00000000
