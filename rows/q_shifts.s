# run 1
# want x5=8000000000000000 x6=1 x7=ffffffffffffffff x8=8000000000000000 x9=ffffffffffffffff
# want x10=ffffffffffffffff x11=ffffffff80000000 x12=1 x13=ffffffff80000000 x14=ffffffffffffffff
# want x15=ffffffff80000000 x16=1 x17=ffffffffffffffff x18=ffffffff80000000 x19=ffffffff80000000
# want x20=8000000000000000 x21=1 x22=0 x23=5 x24=fffffffffffffffe x25=7fffffff x26=1
        .irp    n, 5, 6, 7, 8, 9, 10, 11, 12, 13, 14, 15, 16, 17, 18, 19, 20, 21, 22, 23, 24, 25, 26
        li      x\n, 0x5a5                 # so that a 0 below was written
        .endr
        li      x1, -1
        slli    x2, x1, 63
        li      x3, 3
        li      x4, 0x80000000
        slli    x5, x3, 63
        srli    x6, x1, 63
        srai    x7, x2, 63
        li      x30, 127                    # its low 6 bits are 63, its low 5 bits 31
        sll     x8, x3, x30
        li      x31, 64
        srl     x9, x1, x31                 # by 0
        sra     x10, x2, x30
        slliw   x11, x3, 31
        srliw   x12, x4, 31
        srliw   x13, x4, 0                  # the sign is carried up also from a shift by 0
        sraiw   x14, x4, 31
        sllw    x15, x3, x30
        srlw    x16, x4, x30
        sraw    x17, x4, x30
        li      x31, 32
        sllw    x18, x4, x31                # by 0
        addiw   x19, x4, 0
        sll     x20, x3, x30
        srl     x21, x1, x30
        srl     x22, x3, x30
        li      x31, 0x7fffffffffffffc0     # bits above the low 6 don't count
        li      x29, 5
        sll     x23, x29, x31
        li      x31, 0xfffffffc
        sraiw   x24, x31, 1
        srli    x25, x1, 33
        ld      x31, mixed
        srlw    x26, x31, x30               # what is above the word doesn't come in
        j       .
        .balign 8
mixed:  .dword  0xffffffff80000000
