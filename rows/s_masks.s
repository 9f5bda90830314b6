# script guest create a trees/eight.dtb
# script guest poke a 0x80000000 PROGRAM
# script guest kick a
# script run 1
# script guest mem a 0x80001000 24
# script guest regs a 0
# script guest regs a 1
# script guest regs a 2
# script guest regs a 3
# script guest regs a 4
# script guest regs a 5
# script guest regs a 6
# script guest regs a 7
# script guest regs a 8
# answer mem a 0000000080001000 0000000000000000fd00fd00fd00fd00fd00fd000000fd00
# answer regs a 0 started ...
# answer sstatus=0000000200000000 sie=0000000000000000 ssip=0000000000000000 stvec=0000000000000000
# answer regs a 1 stopped ...
# answer sstatus=0000000200000000 sie=0000000000000000 ssip=0000000000000002 stvec=0000000000000000
# answer regs a 2 stopped ...
# answer sstatus=0000000200000000 sie=0000000000000000 ssip=0000000000000000 stvec=0000000000000000
# answer regs a 3 stopped ...
# answer sstatus=0000000200000000 sie=0000000000000000 ssip=0000000000000002 stvec=0000000000000000
# answer regs a 4 stopped ...
# answer sstatus=0000000200000000 sie=0000000000000000 ssip=0000000000000000 stvec=0000000000000000
# answer regs a 5 stopped ...
# answer sstatus=0000000200000000 sie=0000000000000000 ssip=0000000000000000 stvec=0000000000000000
# answer regs a 6 stopped ...
# answer sstatus=0000000200000000 sie=0000000000000000 ssip=0000000000000000 stvec=0000000000000000
# answer regs a 7 stopped ...
# answer sstatus=0000000200000000 sie=0000000000000000 ssip=0000000000000002 stvec=0000000000000000
# answer refused vcpu
# Masks of IPIs: bits 0 and 2 from base 1 on, bit 0 from base 7 on, and none with a base far away, which is
# no error, and with base -2. Refused, and nothing is pending by them: VCPU 8 beside 0, bit 8, bit 63, base
# 8, base 2^32, and bit 8 with base -8, which isn't VCPU 0, since that sum doesn't wrap. Fences look at the
# mask: all, and VCPU 8.
        .include "calls.inc"
        keep_at 0x80001000
        kept    IPI, 0, 5, 1
        kept    IPI, 0, 1, 7
        kept    IPI, 0, 0, 100
        kept    IPI, 0, 0, -2
        kept    IPI, 0, 0x101, 0
        kept    IPI, 0, 0x100, 0
        kept    IPI, 0, 0x8000000000000000, 0
        kept    IPI, 0, 1, 8
        kept    IPI, 0, 1, 0x100000000
        kept    IPI, 0, 0x100, -8
        kept    FENCE, 0, 0xff, 0
        kept    FENCE, 0, 0x1ff, 0
        j       .
