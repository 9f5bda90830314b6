# run 1
# want x5=ff x6=0 x7=f0 x8=f0 x9=f0 x10=f0 x11=f0 x12=f0 x13=f0 x14=0 x15=200000100 x16=200000100
# want x17=200000000 scause=0
# CSR rows whose operand is 0: CSRRWI writes it; a register that holds 0, x0 and the immediate 0 set and
# clear nothing. CSRRC of all ones clears all that isn't fixed.
        li      x3, -1
        li      x1, 0xff
        csrw    sscratch, x1
        csrrwi  x5, sscratch, 0
        csrr    x6, sscratch
        li      x1, 0xf0
        csrw    sscratch, x1
        li      x2, 0
        csrrc   x7, sscratch, x2
        csrrs   x8, sscratch, x2
        csrrc   x9, sscratch, x0
        csrrsi  x10, sscratch, 0
        csrrci  x11, sscratch, 0
        csrr    x12, sscratch
        csrrc   x13, sscratch, x3
        csrr    x14, sscratch
        li      x1, 0x100
        csrw    sstatus, x1
        csrrci  x15, sstatus, 0
        csrrc   x16, sstatus, x3            # UXL stays
        csrr    x17, sstatus
        j       .
