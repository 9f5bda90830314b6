# script guest create a trees/whole.dtb
# script guest poke a 0x80000000 PROGRAM
# script guest kick a
# script run 2
# script guest regs a 1
# script run 1
# script guest regs a 1
# script run 1
# script guest regs a 1
# answer regs a 1 stopped S ...
# answer x28=000000000000001c x29=000000000000001d x30=000000000000001e x31=000000000000001f
# answer sstatus=00000002000c0120 sie=0000000000000222 ssip=0000000000000000 stvec=fffffffffffffffc
# answer sscratch=ffffffffffffffff sepc=fffffffffffffffc scause=ffffffffffffffff stval=ffffffffffffffff
# answer satp=0000000000080001 scounteren=0000000000000002 senvcfg=0000000000000001 timer=0000000000000007
# answer regs a 1 started S pc=0000000080000400
# answer x0=0000000000000000 x1=0000000000000000 x2=0000000000000000 x3=0000000000000000
# answer x4=0000000000000000 x5=0000000000000000 x6=0000000000000000 x7=0000000000000000
# answer x8=0000000000000000 x9=0000000000000000 x10=0000000000000001 x11=fedcba9876543210
# answer x12=0000000000000000 x13=0000000000000000 x14=0000000000000000 x15=0000000000000000
# answer x16=0000000000000000 x17=0000000000000000 x18=0000000000000000 x19=0000000000000000
# answer x20=0000000000000000 x21=0000000000000000 x22=0000000000000000 x23=0000000000000000
# answer x24=0000000000000000 x25=0000000000000000 x26=0000000000000000 x27=0000000000000000
# answer x28=0000000000000000 x29=0000000000000000 x30=0000000000000000 x31=0000000000000000
# answer sstatus=0000000200000000 sie=0000000000000000 ssip=0000000000000000 stvec=0000000000000000
# answer sscratch=0000000000000000 sepc=0000000000000000 scause=0000000000000000 stval=0000000000000000
# answer satp=0000000000000000 scounteren=0000000000000000 senvcfg=0000000000000000 timer=ffffffffffffffff
# want state=started mode=S pc=8000040c x5=1 x6=0 x7=12c x10=1 x11=fedcba9876543210 ssip=0
# What hart_start leaves of a VCPU that has run and stopped, with all registers set: its reset values, but
# the pc, a0, which is its number, and a1. A software interrupt that came while it was stopped is lost: x6
# is its sip. Guest time goes on (x7).
        .include "calls.inc"
        start   1, second
        until_written 0x80001100
        call    IPI, 0, 2, 0
        start   1, again, 0xfedcba9876543210
        j       .
second: call    TIME, 0, 7
        li      x5, 0x80001100
        li      x6, 1
        sw      x6, 0(x5)
        li      x5, -1
        csrw    sscratch, x5
        csrw    scounteren, x5
        csrw    senvcfg, x5
        csrw    sepc, x5
        csrw    scause, x5
        csrw    stval, x5
        li      x6, -4
        csrw    stvec, x6
        csrw    sie, x5
        li      x6, 0x80001
        csrw    satp, x6
        li      x6, 0xc0120
        csrw    sstatus, x6
        .irp    n, 1, 2, 3, 4, 5, 6, 7, 8, 9, 12, 13, 14, 15, 18, 19, 20, 21, 22, 23, 24, 25, 26, 27, 28
        li      x\n, \n
        .endr
        .irp    n, 29, 30, 31
        li      x\n, \n
        .endr
        call    HART, 1, 10, 11
        j       .
        .org    0x400
again:  li      x5, 1
        csrr    x6, sip
        rdtime  x7
        j       .
