# script guest create a trees/one.dtb
# script guest poke a 0x80000000 PROGRAM
# script guest list
# script guest kick a
# script run 3
# script guest list
# script guest kick a
# script guest poke a 0x80000000 00
# script vserial input a/uart@10000000 41
# script guest mem a 0x80000000 4
# script guest regs a 0
# answer a reset vcpus 1
# answer ran 3 idle 2 now 300
# answer guests 1
# answer a halted pass vcpus 1
# answer refused state
# answer refused state
# answer input a/uart@10000000 1
# answer mem a 0000000080000000 37031000
# want pc=80000010 x6=100000 x7=5555 state=started mode=S scause=0
# The store retires, the guest halts, and later turns are idle; the VCPU stays as it was.
        .word   0x00100337, 0x000053b7, 0x55538393, 0x00732023, 0x0000006f
