# script guest create a trees/whole.dtb
# script guest poke a 0x80000000 PROGRAM
# script guest kick a
# script run 1
# script guest regs a 1
# script run 4
# script guest regs a 1
# script guest regs a 0
# answer regs a 1 started S pc=0000000080000020
# answer x4=0000000000000000 x5=0000000000000000 x6=0000000000000000 x7=0000000000000000
# answer ran 4 idle 0 now 500
# answer regs a 1 started S pc=0000000080000020
# answer x4=0000000000000000 x5=00000000000003e8 x6=0000000000000000 x7=0000000000000000
# want x5=5d8 pc=80000020 x6=0
# Two VCPUs of one priority: the turns go to 0, 1, 0, 1, 0, and each counts two steps at a time. Before that
# VCPU 0 makes the 8 steps that start VCPU 1, so that it comes to 496 + 500 + 500 = 0x5d8, and VCPU 1 to 500
# + 500 = 0x3e8.
        .include "calls.inc"
        la      x11, loop
        li      x10, 1
        li      x12, 0
        li      x17, HART
        li      x16, 0
        ecall
loop:   addi    x5, x5, 1
        j       loop
