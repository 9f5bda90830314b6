# script guest create a trees/whole.dtb
# script guest poke a 0x80000000 PROGRAM
# script guest kick a
# script run 2
# script guest mem a 0x80001000 20
# script guest regs a 0
# script run 2
# script guest regs a 0
# answer ran 2 idle 0 now 200
# answer mem a 0000000080001000 fd00fd00fe00fe00fe00fd00fd00fe00fe00fd00
# answer regs a 0 suspended S pc=0000000080000ffc
# answer sstatus=0000000200000000 sie=0000000000000002 ssip=0000000000000000 stvec=0000000000000000
# answer ran 2 idle 2 now 400
# want state=suspended x8=0 x10=0 x11=0 x12=9 x18=0 x19=0 x20=64 x21=0 sepc=0 scause=0 pc=80000ffc
# The kinds that are refused, of which the low 32 bits count: the standard's 1 to 0x0fffffff and 0x80000001
# to 0x8fffffff as invalid, the others as not supported. Kind 0 with a software interrupt pending and
# enabled, SIE 0: the turn ends all the same, and the next one goes on behind the call, at another time
# (x20), with a0 and a1 0 (x18, x19). Then without: the VCPU is suspended, its a0 and a1 are written, and
# later turns are idle.
        .include "calls.inc"
        keep_at 0x80001000
        kept    HART, 3, 1, 8, 9
        kept    HART, 3, 0x0fffffff
        kept    HART, 3, 0x10000000
        kept    HART, 3, 0x7fffffff
        kept    HART, 3, 0x80000000
        kept    HART, 3, 0x80000001
        kept    HART, 3, 0x8fffffff
        kept    HART, 3, 0x90000000
        kept    HART, 3, -1
        kept    HART, 3, 0x500000001
        csrsi   sie, 2
        csrsi   sip, 2
        rdtime  x21
        call    HART, 3, 0, 8, 9
        mv      x18, x10
        mv      x19, x11
        rdtime  x20
        csrci   sip, 2
        li      x10, 0x500000000
        li      x11, 8
        j       last
        .org    0xff8
last:   ecall
        j       .
