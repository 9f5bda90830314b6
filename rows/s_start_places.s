# script guest create a trees/eight.dtb
# script guest poke a 0 6f0000009302700067000000
# script guest poke a 0xffc 93028000
# script guest poke a 0x80001800 9302900013039000170300006f000000
# script guest poke a 0x80001ffc 6f000000
# script guest poke a 0x80000000 PROGRAM
# script guest kick a
# script run 5
# script guest mem a 0x80001000 12
# script guest regs a 1
# script guest regs a 2
# script guest regs a 3
# script guest regs a 6
# script guest regs a 7
# script guest regs a 0
# answer created a vcpus 8 regions 4 frames 8
# answer mem a 0000000080001000 000000000000fb000000fb00
# answer regs a 1 started S pc=0000000000000000
# answer x4=0000000000000000 x5=0000000000000007 x6=0000000000000000 x7=0000000000000000
# answer x8=0000000000000000 x9=0000000000000000 x10=0000000000000001 x11=0000000000000009
# answer regs a 2 started S pc=0000000000000000
# answer x4=0000000000000000 x5=0000000000000008 x6=0000000000000000 x7=0000000000000000
# answer x8=0000000000000000 x9=0000000000000000 x10=0000000000000002 x11=0000000000000009
# answer sscratch=0000000000000000 sepc=0000000000001000 scause=0000000000000001 stval=0000000000001000
# answer regs a 3 started S pc=000000009000080c
# answer x4=0000000000000000 x5=0000000000000009 x6=0000000090000808 x7=0000000000000000
# answer x8=0000000000000000 x9=0000000000000000 x10=0000000000000003 x11=0000000000000009
# answer regs a 6 started S pc=0000000090000ffc
# answer x8=0000000000000000 x9=0000000000000000 x10=0000000000000006 x11=0000000000000009
# answer regs a 7 stopped S pc=0000000080000000
# want x8=0 state=started
# VCPUs started in the ROM, whose word leads to its start; in its last word, which runs, and behind it the
# fetch faults; in an alias of RAM, where the pc is the alias's (x6 is by AUIPC); in the alias's last word,
# which is also the last word of RAM. Refused: the end of the alias, and that of the ROM.
        .include "calls.inc"
        keep_at 0x80001000
        kept    HART, 0, 1, 4, 9
        kept    HART, 0, 2, 0xffc, 9
        kept    HART, 0, 3, 0x90000800, 9
        kept    HART, 0, 7, 0x90001000, 9
        kept    HART, 0, 6, 0x90000ffc, 9
        kept    HART, 0, 7, 0x1000, 9
        j       .
