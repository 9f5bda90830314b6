# run 1
# want x5=6000080000401 x6=6000080000402 x7=6000080000403 x8=6000080000401 x9=6000080000402
# want x10=6000080000403 x11=6000080000401 x12=6000080000402 x13=6000080000403
# want x14=6000080000401 x15=6000080000402 x16=6000080000404 x17=6000080000401 x18=6000080000402
# want x19=6000080000404 x20=6000080000401 x21=6000080000402 x22=6000080000404
# want x23=1122334455667788 x31=5a5
        .include "trap.inc"
main:   la      x1, cell + 1
        la      x2, cell + 2
        la      x3, cell + 3
        la      x4, cell + 4
        li      x31, 0x5a5
        try     x5, amoswap.w x31, x31, (x1)
        try     x6, amoadd.w x31, x31, (x2)
        try     x7, amoxor.w x31, x31, (x3)
        try     x8, amoand.w x31, x31, (x1)
        try     x9, amoor.w x31, x31, (x2)
        try     x10, amomin.w x31, x31, (x3)
        try     x11, amomax.w x31, x31, (x1)
        try     x12, amominu.w x31, x31, (x2)
        try     x13, amomaxu.w x31, x31, (x3)
        try     x14, amoswap.d x31, x31, (x1)
        try     x15, amoadd.d x31, x31, (x2)
        try     x16, amoxor.d x31, x31, (x4)
        try     x17, amoand.d x31, x31, (x1)
        try     x18, amoor.d x31, x31, (x2)
        try     x19, amomin.d x31, x31, (x4)
        try     x20, amomax.d x31, x31, (x1)
        try     x21, amominu.d x31, x31, (x2)
        try     x22, amomaxu.d x31, x31, (x4)
        la      x1, cell
        ld      x23, 0(x1)
        j       .
        .org    0x400
cell:   .dword  0x1122334455667788, 0
