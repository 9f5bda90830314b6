# run 1
# want x5=2000c0122 x6=222 x7=fffffffffffffffc x8=fffffffffffffffc x9=fffffffffffffffd x10=2 x11=1
# want x12=ffffffffffffffff x13=fffffffffffffffc x14=ffffffffffffffff x15=ffffffffffffffff x16=2
# want x17=0 x18=fffffffffff x19=123 x20=123 x21=200000000 x22=123 x23=0 x24=200000000 x25=fffffffffffffffc
# want sstatus=200000000 sie=0 ssip=0 stvec=80000400 sscratch=0 sepc=0 scause=0 stval=0 satp=0
# want scounteren=0 senvcfg=0
# Each register gets all ones and is read back; then all of them get 0.
        li      x1, -1
        csrw    sstatus, x1
        csrr    x5, sstatus
        csrw    sie, x1
        csrr    x6, sie
        csrw    sie, x0                     # before sip, since SIE is set now
        csrw    stvec, x1                   # low bits 3 give 0
        csrr    x7, stvec
        li      x2, -2
        csrw    stvec, x2                   # 2 gives 0
        csrr    x8, stvec
        li      x2, -3
        csrw    stvec, x2                   # 1 stays
        csrr    x9, stvec
        csrw    scounteren, x1
        csrr    x10, scounteren
        csrw    0x10a, x1                   # senvcfg
        csrr    x11, 0x10a
        csrw    sscratch, x1
        csrr    x12, sscratch
        csrw    sepc, x1
        csrr    x13, sepc
        csrw    scause, x1
        csrr    x14, scause
        csrw    stval, x1
        csrr    x15, stval
        csrw    sip, x1
        csrr    x16, sip
        csrw    satp, x1                    # MODE 15: no effect at all
        csrr    x17, satp
        srli    x2, x1, 4                   # MODE 0, ASID and PPN all ones
        csrw    satp, x2
        csrr    x18, satp
        li      x3, 0x123
        csrw    satp, x3
        csrrw   x19, satp, x1               # the old value is read, and stays
        li      x2, 9
        slli    x2, x2, 60
        csrrs   x20, satp, x2               # likewise by a set row: MODE 9
        csrr    x22, satp
        csrw    satp, x0
        csrr    x23, satp
        csrw    sstatus, x0
        csrr    x21, sstatus
        csrrw   x24, sstatus, x0
        csrrw   x25, sepc, x0
        csrw    sip, x0
        csrw    scounteren, x0
        csrw    0x10a, x0
        csrw    sscratch, x0
        csrw    scause, x0
        csrw    stval, x0
        li      x2, 0x80000402              # ends in 2
        csrw    stvec, x2
        j       .
