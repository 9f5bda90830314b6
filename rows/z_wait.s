# script guest create a trees/one.dtb
# script guest poke a 0x80000000 PROGRAM
# script guest kick a
# script run 3
# script guest regs a 0
# script vserial input a/uart@10000000 5a
# script run 2
# script vserial input a/uart@10000000 6162
# script run 2
# script vserial dump a/uart@10000000
# script guest regs a 0
# answer ran 3 idle 2 now 300
# answer regs a 0 waiting S pc=0000000080000044
# answer input a/uart@10000000 1
# answer ran 2 idle 1 now 500
# answer input a/uart@10000000 2
# answer ran 2 idle 1 now 700
# answer dump a/uart@10000000 lost 0 bytes 3
# answer Zab
# want state=waiting mode=S pc=80000044 scause=8000000000000009 sepc=80000044 stval=0 x20=3 x21=aaa x22=0
# want sstatus=200000022 sie=200 x23=200 x24=0
# WFI waits, and turns are idle, until a byte comes in, whose interrupt is taken behind the WFI. The handler
# claims source 10, sends back the byte that it reads, and completes. Of two bytes that come at once the
# second one's interrupt is there as the first is completed, so that the handler is entered again before the
# WFI.
        la      x1, handler
        csrw    stvec, x1
        lui     x1, 0x10000                 # the UART, the PLIC and its context
        lui     x2, 0xc000
        lui     x3, 0xc002
        lui     x4, 0xc200
        li      x5, 1
        sw      x5, 40(x2)
        li      x6, 1024
        sw      x6, 0(x3)
        sb      x5, 1(x1)
        csrr    x22, sip                    # nothing yet
        li      x5, 0x200
        csrs    sie, x5
        csrsi   sstatus, 2
again:  wfi
        j       again
        .balign 4
handler:
        csrr    x23, sip
        lw      x7, 4(x4)
        slli    x21, x21, 4
        add     x21, x21, x7
        csrr    x24, sip                    # in service: not pending
        lbu     x8, 0(x1)
        sb      x8, 0(x1)
        addi    x20, x20, 1
        sw      x7, 4(x4)
        sret
