# run 1
# want x5=80000802 x6=80000802 x7=8000040a x8=80000412 x9=0 x10=8000043a x11=8000044a x12=8000045a
# want x13=8000046a x14=8000047a x15=8000048a x16=80000498 x17=1 x31=5a5 scause=0 pc=800004a4
# Targets that are 2 modulo 4: cause 0, stval the target, rd as it was. The pcs are fixed by .org, the
# jumps are words, since the assembler refuses such targets. scause is cleared where all has come right.
        .include "trap.inc"
main:   li      x1, 0x80000800
        la      x2, hop
        li      x3, -1
        li      x4, 1
        li      x31, 0x5a5
        try     x5, jalr x31, 2(x1)
        try     x6, jalr x31, 3(x1)         # bit 0 is cleared
        csrw    scause, x0
        csrw    stval, x0
        j       slots
        .macro  slot at, dest, jump
        .org    \at
        li      x30, 0
        .word   \jump
        mv      \dest, x30
        nop
        .endm
        .org    0x400
slots:
        slot    0x400, x7, 0x00600fef       # jal x31, .+6
        slot    0x410, x8, 0xffffffef       # jal x31, .-2
        slot    0x420, x9, 0x00001363       # bne x0, x0, .+6: not taken, so nothing is raised
        slot    0x430, x10, 0x00000363      # beq x0, x0, .+6
        slot    0x440, x11, 0x00021363      # bne x4, x0, .+6
        slot    0x450, x12, 0x0001c363      # blt x3, x0, .+6
        slot    0x460, x13, 0x00005363      # bge x0, x0, .+6
        slot    0x470, x14, 0x00406363      # bltu x0, x4, .+6
        slot    0x480, x15, 0x00007363      # bgeu x0, x0, .+6
        csrw    scause, x0
        jalr    x16, 1(x2)                  # bit 0 is cleared, so the target is lawful
        .org    0x4a0
hop:    li      x17, 1
        j       .
