# Branches, products and quotients: greatest common divisors of numbers that a linear generator gives.
        ld      x8, factor
        li      x9, 11
next:   mul     x6, x6, x8              # the next number
        add     x6, x6, x9
        mulhu   x5, x6, x8              # another one, of its high product
        srli    x7, x6, 20
        bltu    x5, x7, step
        divw    x10, x5, x9
        add     x12, x12, x10
step:   beqz    x7, done
        remu    x10, x5, x7
        mv      x5, x7
        mv      x7, x10
        andi    x11, x7, 1
        bnez    x11, step
        addi    x13, x13, 1             # how many even remainders came
        j       step
done:   add     x12, x12, x5            # the sum of the divisors
        xori    x14, x12, 0x55
        j       next
        .balign 8
factor: .dword  0x5851f42d4c957f2d
