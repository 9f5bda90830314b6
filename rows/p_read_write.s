# run 1
# want x5=0 x6=f0 x7=ff x8=3c x9=3c x10=1f x11=1f x12=1c x13=1c x14=f x15=aa x16=f sscratch=aa x17=aa x0=0
        li      x1, 0xf0
        csrrw   x5, sscratch, x1            # each row reads the old value
        li      x1, 0x0f
        csrrs   x6, sscratch, x1            # f0 | 0f
        li      x1, 0xc3
        csrrc   x7, sscratch, x1            # ff & ~c3
        csrrs   x8, sscratch, x0
        csrrwi  x9, sscratch, 0x1f
        csrrsi  x10, sscratch, 0
        csrrci  x11, sscratch, 3            # 1f & ~3
        csrrci  x12, sscratch, 0
        csrrsi  x13, sscratch, 0x13         # 1c | 13 = 1f
        csrrci  x0, sscratch, 0x10
        csrr    x14, sscratch
        li      x15, 0xaa
        mv      x16, x15
        csrrw   x16, sscratch, x16          # rd and rs1 are one register
        csrrc   x17, sscratch, x0
        j       .
