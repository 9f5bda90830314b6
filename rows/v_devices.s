# script guest create a trees/one.dtb
# script guest poke a 0x80000000 PROGRAM
# script vserial input a/uart@10000000 5a5b
# script guest kick a
# script run 1
# script vserial dump a/uart@10000000
# script guest list
# script guest regs a 0
# answer dump a/uart@10000000 lost 0 bytes 1
# answer V
# answer a running vcpus 1
# want x3=5a x4=66 x5=5000000000004 x6=7000000000004 x7=5b x8=f000000400007 x9=66 x10=f000000700000
# want x11=5000000000000 x12=7000000000000 x13=f000000400000 x14=1000000800000 x15=c000000000000 x16=4
# want x17=a x18=4000000000001 x19=f000000400000 x20=d000000a00000 x21=5000000200000
# Devices through Sv39: the UART at 0 and, for reading alone, at 400000, with X at 800000, the PLIC's
# context at 200000, the finisher at 700000 without D. Page faults come before the device; what it refuses
# is an access fault with the virtual address.
        .include "jump.inc"
main:   la      x28, root
        srli    x28, x28, 12
        li      x29, 8
        slli    x29, x29, 60
        or      x28, x28, x29
        lui     x1, 0xc000                  # source 10 has priority 1 and is enabled
        li      x2, 1
        sw      x2, 40(x1)
        lui     x1, 0xc002
        li      x2, 1024
        sw      x2, 0(x1)
        csrw    satp, x28
        li      x2, 0x66
        li      x1, 0x400000
        lbu     x3, 0(x1)
        sb      x2, 7(x0)
        lbu     x4, 7(x0)
        try     x5, lw x31, 4(x0)
        try     x6, sw x2, 4(x0)
        li      x2, 1
        sb      x2, 1(x0)
        lbu     x16, 2(x1)                  # IIR: a byte is there
        li      x2, 0x200000
        try     x21, ld x31, 0(x2)
        lw      x17, 4(x2)                  # the claim
        li      x2, 0x5555
        try     x8, sb x2, 7(x1)
        lbu     x9, 7(x1)
        li      x31, 0x700000
        mv      x26, x31
        try     x10, sw x2, 0(x26)
        try     x11, lr.w x31, (x0)
        try     x12, amoswap.d x31, x2, (x0)
        try     x13, amoswap.d x31, x2, (x1)
        try     x18, lh x31, 1(x0)
        try     x19, sc.w x31, x2, (x1)     # W is missing, and no reservation is held
        li      x26, 0xa00000
        try     x20, lb x31, 0(x26)         # no entry
        li      x26, 0x800000
        try     x14, jalr x27, 0(x26)
        try     x15, jalr x27, 0(x0)
        lbu     x7, 0(x0)
        li      x2, 'V'
        sb      x2, 0(x0)
        j       .
        .org    0x1000
root:   .dword  0x20000801, 0, 0x200000cf
        .org    0x2000
        .dword  0x040000c7, 0x030800c7, 0x04000043, 0x47, 0x040000cf
