# script guest create a trees/whole.dtb
# script guest poke a 0x3000 2200000000000000
# script guest poke a 0x80000000 PROGRAM
# script guest poke a 0x80003000 1100000000000000
# script guest kick a
# script run 4
# script guest regs a 0
# script guest regs a 1
# answer ran 4 idle 0 now 400
# answer regs a 0 started S ...
# answer satp=0000000000000000 scounteren=0000000000000000 senvcfg=0000000000000000 timer=ffffffffffffffff
# want x20=11 x21=22 x22=5 x23=4 satp=8000000000080001 state=started scause=0
# What one VCPU changes the other one finds in its next turn, without a fence. VCPU 1 translates, VCPU 0
# doesn't: each has its own satp. VCPU 1 reads by a leaf of 1 GiB, and calls an instruction; VCPU 0 then
# leads the leaf elsewhere, and changes the instruction, and VCPU 1 reads and calls again.
        .include "calls.inc"
        .include "sv39.inc"
        identity
        leads   root, 3, 0x80000000, 0xcf
        start   1, second
        until_written data
        leads   root, 3, 0, 0xcf
        la      x5, spot
        li      x6, 0x00500b13              # addi x22, x0, 5
        sw      x6, 0(x5)
        li      x5, data
        sw      x6, 4(x5)
        j       .
second: translate
        li      x5, 0xc0003000
        ld      x20, 0(x5)
        jal     x1, spot
        mv      x23, x22
        li      x6, data
        sw      x5, 0(x6)
        until_written data + 4
        ld      x21, 0(x5)
        jal     x1, spot
        j       .
spot:   addi    x22, x0, 4
        ret
