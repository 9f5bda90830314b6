# script guest create a trees/whole.dtb
# script guest poke a 0x80000000 PROGRAM
# script vserial input a/uart@10000000 5a5b
# script guest kick a
# script run 2
# script guest regs a 0
# script guest regs a 1
# script guest list
# script run 2
# script guest regs a 0
# script guest regs a 1
# script guest mem a 0x80001000 16
# script run 2
# script guest list
# script guest mem a 0x80001000 16
# script vserial dump a/uart@10000000
# script guest regs a 1
# script guest regs a 0
# answer ran 2 idle 0 now 200
# answer regs a 0 started S pc=0000000080000000
# answer x0=0000000000000000 x1=0000000000000000 x2=0000000000000000 x3=0000000000000000
# answer x4=0000000000000000 x5=0000000000000000 x6=0000000000000000 x7=0000000000000000
# answer x8=0000000000000000 x9=0000000000000000 x10=0000000000000000 x11=0000000000000000
# answer x12=0000000000000000 x13=0000000000000000 x14=0000000000000000 x15=0000000000000000
# answer x16=0000000000000000 x17=0000000000000000 x18=0000000000000000 x19=0000000000000000
# answer sstatus=0000000200000000 sie=0000000000000000 ssip=0000000000000000 stvec=0000000000000000
# answer sscratch=0000000000000000 sepc=0000000000000000 scause=0000000000000000 stval=0000000000000000
# answer satp=0000000000000000 scounteren=0000000000000000 senvcfg=0000000000000000 timer=ffffffffffffffff
# answer regs a 1 stopped S pc=0000000080000000
# answer x0=0000000000000000 x1=0000000000000000 x2=0000000000000000 x3=0000000000000000
# answer x4=0000000000000000 x5=0000000000000000 x6=0000000000000000 x7=0000000000000000
# answer x8=0000000000000000 x9=0000000000000000 x10=0000000000000000 x11=0000000000000000
# answer x12=0000000000000000 x13=0000000000000000 x14=0000000000000000 x15=0000000000000000
# answer x16=0000000000000000 x17=0000000000000000 x18=0000000000000000 x19=0000000000000000
# answer sstatus=0000000200000000 sie=0000000000000000 ssip=0000000000000000 stvec=0000000000000000
# answer sscratch=0000000000000000 sepc=0000000000000000 scause=0000000000000000 stval=0000000000000000
# answer satp=0000000000000000 scounteren=0000000000000000 senvcfg=0000000000000000 timer=ffffffffffffffff
# answer guests 1
# answer a running vcpus 2
# answer ran 2 idle 0 now 400
# answer regs a 0 started S pc=0000000080000000
# answer x4=0000000000000000 x5=0000000000000000 x6=0000000000000000 x7=0000000000000000
# answer regs a 1 stopped S pc=0000000080000000
# answer mem a 0000000080001000 02000000000000006000000000000000
# answer ran 2 idle 0 now 600
# answer a running vcpus 2
# answer mem a 0000000080001000 04000000000000006000000000000000
# answer dump a/uart@10000000 lost 0 bytes 2
# answer XX
# answer regs a 1 stopped S pc=0000000080000000
# answer sstatus=0000000200000000 sie=0000000000000000 ssip=0000000000000002 stvec=0000000000000000
# want state=started x5=4 x6=80001000 x7=3 x10=0 x11=1 x20=1f4 x21=60 x22=0 pc=80000800
# Four boots, told apart by a word of memory that counts them. In the first and the second one VCPU 0 starts
# VCPU 1 and goes on, and VCPU 1 sets registers, sends X, and reboots: by the call with type 1 and a reason,
# and by the finisher. All registers of both are reset then, VCPU 0 is started and VCPU 1 stopped; the input
# that waited is gone, as LSR says (at 0x80001008, x21), and what was sent stays. In the third one VCPU 0
# reboots by type 2, and in the fourth it finds that VCPU 1 is stopped (x11), and that time goes on (x20).
# VCPU 1 gets an IPI.
        .include "calls.inc"
        li      x6, 0x80001000
        ld      x5, 0(x6)
        addi    x5, x5, 1
        sd      x5, 0(x6)
        lui     x7, 0x10000
        lbu     x21, 5(x7)
        sd      x21, 8(x6)
        li      x7, 3
        bltu    x7, x5, fourth
        beq     x7, x5, third
        start   1, second
        csrsi   sie, 2
        j       .
second: li      x6, 0x80001000
        ld      x5, 0(x6)
        lui     x7, 0x10000
        li      x8, 'X'
        sb      x8, 0(x7)
        li      x8, -1
        csrw    sscratch, x8
        csrw    sepc, x8
        csrw    scause, x8
        csrw    stval, x8
        csrw    scounteren, x8
        csrw    senvcfg, x8
        csrw    sip, x8
        csrw    stvec, x8
        li      x8, 0x200
        csrw    sie, x8
        call    TIME, 0, 7
        call    IPI, 0, 1, 0
        addi    x7, x5, -1
        bnez    x7, 1f
        call    RESET, 0, 1, 1
        j       .
1:      lui     x7, 0x100
        li      x8, 0x7777
        sw      x8, 0(x7)
        j       .
third:  call    RESET, 0, 2, 0
        j       .
fourth: call    IPI, 0, 2, 0
        rdtime  x20
        call    HART, 2, 1
        j       last
        .org    0x800
last:   j       .
