# script guest create a trees/one.dtb
# script guest poke a 0x80000000 PROGRAM
# script vserial input a/uart@10000000 414243
# script guest kick a
# script run 1
# script guest list
# script guest regs a 0
# script run 1
# script vserial dump a/uart@10000000
# script guest mem a 0x80001000 8
# script guest regs a 0
# answer ran 1 idle 0 now 100
# answer a running vcpus 1
# answer regs a 0 started S pc=0000000080000000
# answer x0=0000000000000000 x1=0000000000000000 x2=0000000000000000 x3=0000000000000000
# answer x4=0000000000000000 x5=0000000000000000 x6=0000000000000000 x7=0000000000000000
# answer x8=0000000000000000 x9=0000000000000000 x10=0000000000000000 x11=0000000000000000
# answer x12=0000000000000000 x13=0000000000000000 x14=0000000000000000 x15=0000000000000000
# answer x16=0000000000000000 x17=0000000000000000 x18=0000000000000000 x19=0000000000000000
# answer x20=0000000000000000 x21=0000000000000000 x22=0000000000000000 x23=0000000000000000
# answer x24=0000000000000000 x25=0000000000000000 x26=0000000000000000 x27=0000000000000000
# answer x28=0000000000000000 x29=0000000000000000 x30=0000000000000000 x31=0000000000000000
# answer sstatus=0000000200000000 sie=0000000000000000 ssip=0000000000000000 stvec=0000000000000000
# answer sscratch=0000000000000000 sepc=0000000000000000 scause=0000000000000000 stval=0000000000000000
# answer satp=0000000000000000 scounteren=0000000000000000 senvcfg=0000000000000000 timer=ffffffffffffffff
# answer dump a/uart@10000000 lost 0 bytes 2
# answer XY
# answer mem a 0000000080001000 0200000000000000
# want x5=2 x6=60 x7=1 x8=0 x9=0 x10=0 x11=b0 x12=0 x13=0 x14=0 x15=0 x16=0 x17=0 x18=0 x19=0 x20=0
# want x21=64 x22=60 state=started ran=1,0,200
# The first time the program changes every register that it can reach, in the hart and in the devices, in U
# at the end with a translation on, sends X, and reboots; the word in memory says so to the second time. The
# turn ends at the reboot. The second time it reads what the devices have: no byte of input is left, that
# which waited in the queue neither (x6 and x22), and time goes on from the birth of the guest (x21).
        la      x1, seen
        ld      x5, 0(x1)
        addi    x5, x5, 1
        sd      x5, 0(x1)
        lui     x2, 0x10000                 # the UART
        lui     x3, 0xc000                  # the PLIC, its enables, its context
        lui     x4, 0xc002
        lui     x31, 0xc200
        li      x6, 2
        beq     x5, x6, second
        li      x6, 'X'
        sb      x6, 0(x2)
        li      x6, 0x12                    # in loop two bits of MSR turn
        sb      x6, 4(x2)
        li      x6, 0x80
        sb      x6, 3(x2)
        sb      x6, 0(x2)                   # the divisor
        sb      x6, 1(x2)
        li      x6, 3
        sb      x6, 3(x2)
        li      x6, 0xc1
        sb      x6, 2(x2)
        sb      x6, 7(x2)
        li      x6, 0xf
        sb      x6, 1(x2)
        li      x6, 7
        sw      x6, 40(x3)
        li      x6, -1
        sw      x6, 0(x4)
        sw      x6, 4(x4)
        li      x6, 3
        sw      x6, 0(x31)
        lw      x7, 4(x31)                  # 10 is in service
        li      x6, -1
        csrw    sscratch, x6
        csrw    scounteren, x6
        csrw    senvcfg, x6
        csrw    scause, x6
        csrw    stval, x6
        csrw    stvec, x6
        csrw    sip, x6
        la      x6, 1f
        li      x8, 0x40000000
        add     x6, x6, x8
        csrw    sepc, x6
        li      x6, 0xc0020                 # MXR, SUM, SPIE; SPP is 0
        csrw    sstatus, x6
        .irp    n, 1, 2, 3, 4, 5, 7, 8, 9, 10, 11, 12, 13, 14, 15, 16, 17, 18, 19, 20, 21, 22, 23, 24
        li      x\n, \n
        .endr
        .irp    n, 25, 26, 27, 28, 29, 30, 31
        li      x\n, \n
        .endr
        li      x8, 0x7777
        lui     x9, 0x100
        li      x10, 8                      # Sv39, from the page at 0x80002000
        slli    x10, x10, 60
        lui     x11, 0x80
        addi    x11, x11, 2
        add     x10, x10, x11
        li      x11, 0x220
        csrw    sie, x11                    # none of these is pending
        csrw    satp, x10
        sret
1:      sw      x8, 0(x9)
        li      x5, 99
        j       .
second: lbu     x6, 5(x2)                   # LSR
        lbu     x7, 2(x2)                   # IIR
        lbu     x8, 1(x2)
        lbu     x9, 3(x2)
        lbu     x10, 4(x2)
        lbu     x11, 6(x2)
        lbu     x12, 7(x2)
        li      x13, 0x80
        sb      x13, 3(x2)
        lbu     x13, 0(x2)                  # the divisor
        lbu     x14, 1(x2)
        sb      x0, 3(x2)
        lw      x15, 40(x3)
        lw      x16, 0(x4)
        lw      x17, 4(x4)
        lw      x18, 0(x31)
        lui     x19, 0xc001
        lw      x19, 0(x19)                 # pending
        lw      x20, 4(x31)                 # claim
        csrr    x21, time
        li      x22, 'Y'
        sb      x22, 0(x2)
        lbu     x22, 5(x2)
        j       .
        .org    0x1000
seen:   .dword  0
        .org    0x2000
        .dword  0xdf, 0, 0x200000cf, 0x200000df     # leaves of 1 GiB, the first and last of U
