# script guest create a trees/no_memory.dtb
# script guest poke a 0x80000000 PROGRAM
# script guest poke a 0x100000 PROGRAM
# script guest mem a 0x100000 4
# script guest audit a
# script vserial list
# script guest kick a
# script run 1
# script guest list
# script guest regs a 0
# answer created a vcpus 1 regions 1 frames 0
# answer refused outside
# answer refused outside
# answer refused outside
# answer audit a 0
# answer vserial 0
# answer a running vcpus 1
# want scause=1 sepc=0 stval=0 pc=0 state=started
# Without memory there is nothing to fetch: first at the start, in a device, and then at the handler, 0.
        nop
