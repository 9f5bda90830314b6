# run 1
# want x5=7fffffff x6=7fffffff x7=7fffffff x8=7fffffff x9=7fffffff x10=7fffffff x11=7fffffff
# want x12=7fffffff x13=7fffffff x14=1122334480000000 x15=11223344ffffffff x16=11223344ffffffff
# want x17=1122334400000000 x18=11223344ffffffff x19=1122334480000000 x20=112233447fffffff
# want x21=112233447fffffff x22=1122334480000000
        .include "amo.inc"
        all     w, 0xaaaaaaaa80000000, 0x112233447fffffff
