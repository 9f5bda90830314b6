# script guest create a trees/one.dtb
# script vserial list
# script guest poke a 0x80000000 PROGRAM
# script vserial input a/uart@10000000 4097*00
# script vserial input a/uart@10000000 4096*5a
# script vserial input a/uart@10000000 5b
# script vserial input a/uart@10000000 5c
# script vserial input a/x 00
# script vserial input a/mem0 00
# script vserial input a/plic@c000000 00
# script vserial input b/uart@10000000 00
# script guest kick a
# script run 1
# script vserial input a/uart@10000000 5c5d
# script vserial input a/uart@10000000 5c
# script guest list
# script guest regs a 0
# answer created a vcpus 1 regions 5 frames 2071
# answer vserial 1
# answer a/uart@10000000
# answer refused full free 4096
# answer input a/uart@10000000 4096
# answer input a/uart@10000000 1
# answer refused full free 0
# answer refused device
# answer refused device
# answer refused device
# answer refused guest
# answer kicked a
# answer ran 1 idle 0 now 100
# answer refused full free 1
# answer input a/uart@10000000 1
# answer guests 1
# answer a running vcpus 1
# want x5=5a x6=61 state=started
# The queue has 4,096 places, and the receiver, without FIFOs, holds one byte more. A read of it makes one
# place free.
        lui     x1, 0x10000
        lbu     x5, 0(x1)
        lbu     x6, 5(x1)
        j       .
