# run 1
# pages 4
# want satp=8000000000090000 scause=1 sepc=80000028 stval=80000028 pc=80000028 sstatus=200000100
# No memory is where the root is to be: the fetch behind the write is an access fault, and so is the handler's.
        auipc   x5, 0
        addi    x5, x5, 40
        csrw    stvec, x5
        li      x6, 1
        slli    x6, x6, 63
        lui     x7, 0x90
        addi    x7, x7, 0
        or      x6, x6, x7
        csrw    satp, x6
        sd      x0, 0(x0)
        j       .
