# script guest create a trees/whole.dtb
# script guest poke a 0x80000000 PROGRAM
# script guest kick a
# script run 1
# script guest mem a 0x80001000 76
# script guest regs a 0
# answer mem a 0000000080001000 00020000000000000000fe0000010001000100010001000100000000000000000000...
# want x8=0 x9=8000104c x18=0 x19=1000000 x10=fffffffffffffffe x11=0 scause=0 state=started
# want x20=0 timer=ffffffffffffffff ssip=0
# All of base, whose versions and ids are 0, and function 7, which isn't there; the probes of the six
# extensions that are there, and of 0, 0x11, the performance counters and 2^32 + 0x10, which aren't, and of -1.
# Then what isn't there: the legacy calls 0 to 8, the performance counters, the functions behind the last of
# each extension, and extension and function with a bit above the low 32. Each of these is -2 and 0: x20 has the
# bits that differ.
        .include "calls.inc"
        .macro  absent extension, function
        kept    \extension, \function, 5, 6, 7
        xori    x7, x10, -2
        or      x20, x20, x7
        or      x20, x20, x11
        .endm
        call    BASE, 0
        mv      x18, x10
        mv      x19, x11
        keep_at 0x80001000
        kept    BASE, 1
        kept    BASE, 2
        kept    BASE, 4
        kept    BASE, 5
        kept    BASE, 6
        kept    BASE, 7
        .irp    id, BASE, TIME, IPI, FENCE, HART, RESET, 0, 0x11, 0x504d55, 0x100000010, -1
        kept    BASE, 3, \id
        .endr
        .irp    id, 0, 1, 2, 3, 4, 5, 6, 7, 8, 0x504d55
        absent  \id, 0
        .endr
        absent  TIME, 1
        absent  IPI, 1
        absent  FENCE, 4
        absent  FENCE, 5
        absent  FENCE, 6
        absent  FENCE, -1
        absent  HART, 4
        absent  RESET, 1
        absent  0x100000010, 0
        absent  BASE, 0x100000000
        absent  -1, -1
        j       .
