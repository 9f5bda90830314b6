# run 1
# want x5=7fffffffffffffff x6=7fffffffffffffff x7=7fffffffffffffff x8=7fffffffffffffff
# want x9=7fffffffffffffff x10=7fffffffffffffff x11=7fffffffffffffff x12=7fffffffffffffff
# want x13=7fffffffffffffff x14=8000000000000000 x15=ffffffffffffffff x16=ffffffffffffffff x17=0
# want x18=ffffffffffffffff x19=8000000000000000 x20=7fffffffffffffff x21=7fffffffffffffff
# want x22=8000000000000000
        .include "amo.inc"
        all     d, 0x8000000000000000, 0x7fffffffffffffff
