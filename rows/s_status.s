# script guest create a trees/whole.dtb
# script guest poke a 0x80000000 PROGRAM
# script guest kick a
# script run 2
# script guest regs a 1
# script run 2
# script guest regs a 1
# script run 2
# script guest regs a 1
# script run 2
# script guest list
# script guest mem a 0x80001000 24
# script guest regs a 0
# script guest regs a 1
# answer ran 2 idle 0 now 200
# answer regs a 1 waiting S ...
# answer ran 2 idle 0 now 400
# answer regs a 1 suspended S ...
# answer x8=0000000000000000 x9=0000000000000000 x10=0000000000000000 x11=0000000000000000
# answer ran 2 idle 0 now 600
# answer regs a 1 stopped S ...
# answer x8=0000000000000000 x9=0000000000000000 x10=0000000000000021 x11=0000000000000022
# answer ran 2 idle 0 now 800
# answer a running vcpus 2
# answer mem a 0000000080001000 00000001fd00fd0000000000000000000004000000010000
# answer regs a 0 stopped S ...
# want state=started x8=0 x10=1 x11=77 x5=0 x20=55 x16=0 x17=0 sie=0 ssip=0
# The hart states: VCPU 0 started, VCPU 1 stopped, 2 and -1 not there; then VCPU 1 started, and so is it
# while it waits in WFI, until an IPI lets it go on, behind the WFI; suspended, until another one lets
# hart_suspend return with 0 and 0 (x10 and x11 then, of which it was called with others); stopped, with a0
# and a1 of its call (0x21 and 0x22), when it can be started again, at another place and with reset
# registers. In the end VCPU 0 stops itself. VCPU 1 tells by a word of memory how far it is.
        .include "calls.inc"
        keep_at 0x80001000
        kept    HART, 2, 0
        kept    HART, 2, 1
        kept    HART, 2, 2
        kept    HART, 2, -1
        start   1, second
        keep
        kept    HART, 2, 1
        until_written 0x80001100
        kept    HART, 2, 1                  # in WFI
        kept    IPI, 0, 2, 0
        until_written 0x80001104
        kept    HART, 2, 1                  # suspended
        kept    IPI, 0, 1, 1
        until_written 0x80001108
        kept    HART, 2, 1                  # stopped
        start   1, again, 0x77
        keep
        call    HART, 1
        j       .
second: li      x5, 0x80001100
        li      x20, 1
        csrsi   sie, 2
        sw      x20, 0(x5)
        wfi
        csrci   sip, 2
        sw      x20, 4(x5)
        call    HART, 3, 0, 8
        csrci   sip, 2
        sw      x20, 8(x5)
        call    HART, 1, 0x21, 0x22
        j       .
again:  li      x20, 0x55
        j       .
