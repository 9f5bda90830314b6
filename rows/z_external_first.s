# script guest create a trees/one.dtb
# script guest poke a 0x80000000 PROGRAM
# script guest kick a
# script run 1
# script vserial input a/uart@10000000 5a
# script run 1
# script guest regs a 0
# answer ran 1 idle 0 now 100
# answer ran 1 idle 0 now 200
# want x10=8000000000000009 x11=8000000000000001 x12=202 x13=2 x14=a x15=80000048 x16=80000048 x17=1 x18=1
# want state=started mode=U
# In U interrupts are taken with SIE 0: the external one before that of software, where both are pending,
# each by its own entry of a vectored stvec. The byte comes in between two turns, in which the guest jumps
# to itself.
        la      x1, base + 1
        csrw    stvec, x1
        lui     x1, 0x10000
        lui     x2, 0xc000
        lui     x3, 0xc002
        lui     x4, 0xc200
        li      x5, 1
        sw      x5, 40(x2)
        li      x6, 1024
        sw      x6, 0(x3)
        sb      x5, 1(x1)
        li      x5, 0x202
        csrw    sie, x5
        la      x5, user
        csrw    sepc, x5
        sret
user:   j       .
        .balign 4
base:   j       .                           # exceptions
        j       software
        .rept   7
        j       .
        .endr
        csrsi   sip, 2                      # external: the entry is at base + 36
        csrr    x10, scause
        csrr    x12, sip
        csrr    x15, sepc
        addi    x17, x17, 1
        lw      x14, 4(x4)
        lbu     x0, 0(x1)
        sw      x14, 4(x4)
        sret
software:
        csrr    x11, scause
        csrr    x13, sip
        csrr    x16, sepc
        addi    x18, x18, 1
        csrci   sip, 2
        sret
