# script guest create a trees/whole.dtb
# script guest regs a 2
# script guest regs a 18446744073709551615
# script guest poke a 0x80000000 PROGRAM
# script guest kick a
# script run 2
# script guest list
# script guest mem a 0x80001000 20
# script guest regs a 1
# script guest kick a
# script guest poke a 0x80000000 00
# script guest regs a 0
# answer created a vcpus 2 regions 5 frames 2071
# answer refused vcpu
# answer refused vcpu
# answer ran 2 idle 1 now 200
# answer guests 1
# answer a halted shutdown vcpus 2
# answer mem a 0000000080001000 00020001fd00fa00fb00fd000000fe00fe000000
# answer regs a 1 stopped S pc=0000000080000000
# answer sstatus=0000000200000000 sie=0000000000000000 ssip=0000000000000002 stvec=0000000000000000
# answer refused state
# answer refused state
# answer regs a 0 started S pc=0000000080001000
# want x8=0 x18=0 x19=1000000 x20=2 x21=0 x10=0 x11=0 x12=0 x16=0 x17=53525354 scause=0 ssip=2
# A call of each kind from VCPU 0: the number of the standard's version, the implementation's, a probe;
# hart_start of a VCPU that isn't there, of the caller, and at a hole; IPIs to VCPUs 0 to 2, of which the
# last isn't there, so that none is pending (x21), and to both, so that they are (x20); a fence of a
# hypervisor, and a legacy call. The shutdown doesn't return: a0 and a1 are its arguments, and the pc is
# behind it, where the bytes that were kept begin.
        .include "calls.inc"
        call    BASE, 0
        mv      x18, x10
        mv      x19, x11
        keep_at 0x80001000
        kept    BASE, 1
        kept    BASE, 3, IPI
        kept    HART, 0, 2, 0x80000000, 0
        kept    HART, 0, 0, 0x80000000, 0
        kept    HART, 0, 1, 0x90000000, 0
        kept    IPI, 0, 7, 0
        csrr    x21, sip
        kept    IPI, 0, 0, -1
        csrr    x20, sip
        kept    FENCE, 3, 0, 0
        kept    0, 0
        li      x10, 0
        li      x11, 0
        li      x17, RESET
        li      x16, 0
        j       last
        .org    0xffc
last:   ecall
