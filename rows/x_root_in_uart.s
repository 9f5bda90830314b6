# script guest create a trees/one.dtb
# script guest poke a 0x80000000 PROGRAM
# script vserial input a/uart@10000000 5a
# script guest kick a
# script run 1
# script vserial input a/uart@10000000 4096*41
# script vserial input a/uart@10000000 42
# script guest regs a 0
# answer created a vcpus 1 regions 5 frames 2071
# answer ran 1 idle 0 now 100
# answer input a/uart@10000000 4096
# answer refused full free 0
# want satp=8000000000080001 scause=7 sepc=80000024 stval=0 pc=80000028
# Entry 0 of the root is a pointer into the UART. The walk of the store at 0 finds no entry there: an access
# fault, and the UART isn't asked. The byte 5a had gone to its receiver at once; had the walk read register
# 0, the first of the 4,096 bytes would have taken its place, and one place were free for the byte after
# them.
        .word   0x00000297, 0x02828293, 0x10529073, 0x00100313, 0x03f31313, 0x000803b7, 0x00138393
        .word   0x00730333, 0x18031073, 0x00003023, 0x0000006f
        .org    0x1000
        .dword  0x04000001, 0, 0x200000cf
