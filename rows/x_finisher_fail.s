# script guest create a trees/no_plic.dtb
# script guest poke a 0x80000000 PROGRAM
# script guest kick a
# script run 1
# script guest list
# script guest regs a 0
# answer created a vcpus 1 regions 4 frames 2071
# answer a halted fail 48879 vcpus 1
# want pc=80000010 scause=0
# The code is the high half of the word: beef.
        lui     x6, 0x100
        lui     x7, 0xbeef3
        addi    x7, x7, 0x333
        sw      x7, 0(x6)
        j       .
