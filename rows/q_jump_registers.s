# run 1
# want x0=0 x5=8000000c x8=80000020 x9=80000034 x10=80000050 x20=0 x11=8000002c x12=0 x14=80000090
# want scause=1 sepc=10 stval=10 pc=80000094
# JALR whose rd is its rs1, which the target is taken from first; offsets that leave bit 0 clear and set;
# x0 as rd, which stays 0; and x0 as the base of a jump.
        la      x5, one
        jalr    x5, 0(x5)                   # 0x8
        li      x20, 1                      # no such line is run
one:    la      x8, two
        addi    x8, x8, 2047
        jalr    x8, -2047(x8)               # 0x1c
        li      x20, 2
two:    la      x9, three
        addi    x9, x9, -2046
        jalr    x9, 2047(x9)                # 0x30: the sum is three + 1
        li      x20, 3
three:  jal     x0, four
        li      x20, 4
four:   la      x10, five
        jalr    x0, 0(x10)
        li      x20, 5
five:   lui     x0, 0xfffff                 # 0x50
        auipc   x0, 1
        addi    x0, x10, 5
        sub     x0, x10, x5
        addw    x0, x10, x10
        mul     x0, x10, x10
        sltu    x0, x0, x10
        csrrw   x0, sscratch, x5
        csrrs   x0, sscratch, x8            # 8000000c | 80000020
        csrrsi  x0, sscratch, 0
        csrr    x11, sscratch
        add     x12, x0, x0
        la      x13, handler
        csrw    stvec, x13
        jalr    x14, 16(x0)                 # 0x8c: retires, and the fetch at 16 is refused
        nop
handler: j      .
