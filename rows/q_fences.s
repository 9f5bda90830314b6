# run 1
# want x31=5 x5=3 scause=0
# FENCE and FENCE.I: all bits but the opcode and funct3 are free; nothing is written.
        li      x31, 5
        .word   0x0ff0000f
        .word   0xffff8f8f
        .word   0xffff9f8f
        .word   0x8330000f
        li      x5, 1
        la      x1, there
        la      x2, other
        lw      x3, 0(x2)
        sw      x3, 0(x1)                   # memory that was written is fetched
        fence.i
there:  li      x5, 2
        j       .
other:  li      x5, 3
