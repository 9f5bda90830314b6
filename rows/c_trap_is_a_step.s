# run 1
# want scause=2 sepc=8000000c stval=0 x6=1f2 pc=80000010
# The trap is step 4; 996 are left, 498 of them ADDI and 498 jumps.
        la      x5, handler
        csrw    stvec, x5
        .word   0
handler:
        addi    x6, x6, 1
        j       handler
