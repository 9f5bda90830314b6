# script guest create a trees/rom.dtb
# script guest poke a 0x100 PROGRAM
# script guest regs a 0
# script guest kick a
# script run 1
# script guest regs a 0
# script run 2
# script guest list
# script guest digest a
# script guest regs a 0
# answer created a vcpus 1 regions 3 frames 6
# answer regs a 0 stopped S pc=0000000000000100
# answer regs a 0 started S pc=0000000000000100
# answer ran 2 idle 1 now 300
# answer a halted fail 2 vcpus 1
# answer digest a 3fcf99bfbfb677fec3a72e952c321f684b6b0d4bb20bc055971a912687b1ef30
# want x5=2 x6=100000 pc=134
# A VCPU starts in a ROM, and again there after a reboot of the guest; RAM tells it how often. The digest is
# that of the 8,192 bytes of ROM and RAM, by sha256sum.
        lui     x1, 0x80
        slli    x1, x1, 12
        lw      x5, 0(x1)
        addi    x5, x5, 1
        sw      x5, 0(x1)
        lui     x6, 0x100
        lui     x7, 0x7
        addi    x7, x7, 0x777
        li      x8, 2
        bne     x5, x8, 1f
        lui     x7, 0x23
        addi    x7, x7, 0x333
1:      sw      x7, 0(x6)
        j       .
