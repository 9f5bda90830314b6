# run 1
# want x5=ff00ff00ff00ff x6=f000f000f000f000 x7=fff0fff0fff0fff0 x8=ff00ff00ff00ff0 x9=0 x10=ffffffffffffffff
# want x11=f0f0f0f0f0f0f7ff x12=700
        ld      x1, a
        ld      x2, b
        li      x3, -1
        li      x9, 0x5a5
        and     x6, x1, x2
        or      x7, x1, x2
        xor     x8, x1, x2
        xor     x9, x1, x1
        xori    x5, x2, -1
        or      x10, x8, x3
        ori     x11, x1, 0x7ff
        andi    x12, x2, 0x7ff
        j       .
        .balign 8
a:      .dword  0xf0f0f0f0f0f0f0f0
b:      .dword  0xff00ff00ff00ff00
