# script guest create a trees/whole.dtb
# script guest poke a 0 6f000000
# script guest poke a 0x80000000 PROGRAM
# script guest kick a
# script run 2
# script guest mem a 0x80001000 28
# script guest regs a 1
# script guest regs a 0
# answer mem a 0000000080001000 fb00fb00fb00fb00fb00fb00fb00fb00fb00fb00fd00fd000000fa00
# answer regs a 1 started S pc=0000000000000000
# answer x8=0000000000000000 x9=0000000000000000 x10=0000000000000001 x11=1234567890abcdef
# answer sscratch=0000000000000000 sepc=0000000080800000 scause=0000000000000001 stval=0000000080800000
# want x8=0 x11=0 x12=9 state=started
# hart_start at no place for it: not a multiple of 4, by 2 and by 1; a hole; the first bytes of the PLIC,
# the UART and the finisher; at the end of RAM and of the ROM; above every region and at the last word of
# all. The VCPU is tried first: -3 at a hole, and of -1. At the last word of RAM it is started, and a second
# start finds it so, which comes before the address. It runs that word, which is 0x00000013, and the fetch
# behind it faults; its handler at 0 is in the ROM.
        .include "calls.inc"
        keep_at 0x80001000
        .irp    place, 0x80000002, 0x80000001, 0x90000000, 0xc000000, 0x10000000, 0x100000, 0x80800000
        kept    HART, 0, 1, \place, 9
        .endr
        .irp    place, 0x10000, 0x20000000000, 0xfffffffffffffffc
        kept    HART, 0, 1, \place, 9
        .endr
        kept    HART, 0, 2, 0x90000000, 9
        kept    HART, 0, -1, 0x80000000, 9
        li      x5, 0x807ffffc
        li      x6, 0x13
        sw      x6, 0(x5)
        kept    HART, 0, 1, 0x807ffffc, 0x1234567890abcdef
        kept    HART, 0, 1, 0x90000000, 9
        j       .
