# run 1
# want x5=ffffffff80000000 x6=ffffffffffffffff x7=ffffffffffffffff
# want x8=ffffffff80000000 x9=ffffffff80000000 pc=80000014 scause=0
        .word   0x800002b7, 0x0202c33b, 0xfff00393, 0x0202e43b, 0x0272c4bb, 0x0000006f
