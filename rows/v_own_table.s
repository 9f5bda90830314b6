# run 1
# pages 4
# want satp=8000000000080001 scause=f sepc=80000024 stval=0 pc=80000028 sstatus=200000100
# Entry 0 of the root names the root itself: on level 0 it is a pointer still. Every access of the handler, a
# fetch, is led by entry 2, a leaf of 1 GiB.
        auipc   x5, 0
        addi    x5, x5, 40
        csrw    stvec, x5
        li      x6, 1
        slli    x6, x6, 63
        lui     x7, 0x80
        addi    x7, x7, 1
        or      x6, x6, x7
        csrw    satp, x6
        sd      x0, 0(x0)
        j       .
        .org    0x1000
        .dword  0x20000401, 0, 0x200000cf
