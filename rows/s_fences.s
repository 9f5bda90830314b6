# script guest create a trees/whole.dtb
# script guest poke a 0x80000000 PROGRAM
# script guest kick a
# script run 1
# script guest mem a 0x80001000 26
# script guest regs a 1
# script guest regs a 0
# answer mem a 0000000080001000 00000000000000000000fd00fd00fd00fd00fe00fe00fe00fe00
# answer regs a 1 stopped S pc=0000000080000000
# answer sstatus=0000000200000000 sie=0000000000000000 ssip=0000000000000000 stvec=0000000000000000
# want x8=0 x20=0 x13=5 x14=6 x15=7 ssip=0 state=started
# The fences 0 to 2, with any start, size and ASID: of VCPU 0, of 1, of all, of none, and of both by their
# bits; of VCPU 2, which isn't there, by each of them, and with base 1 of the bits 0 and 1; 3 to 6 aren't
# there, whatever the mask. Nothing else has changed: no software interrupt is pending.
        .include "calls.inc"
        li      x13, 5
        li      x14, 6
        li      x15, 7
        keep_at 0x80001000
        kept    FENCE, 0, 1, 0
        kept    FENCE, 1, 1, 1, -1
        kept    FENCE, 2, 4, -1, 4096
        kept    FENCE, 2, 0, 5
        kept    FENCE, 1, 3, 0
        kept    FENCE, 0, 4, 0
        kept    FENCE, 1, 1, 2
        kept    FENCE, 2, 7, 0
        kept    FENCE, 0, 3, 1
        kept    FENCE, 3, 1, 0
        kept    FENCE, 4, 4, 0
        kept    FENCE, 5, 0, -1
        kept    FENCE, 6, 1, 0
        csrr    x20, sip
        j       .
