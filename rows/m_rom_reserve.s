# tree one
# run 1
# want scause=0 x7=0 x5=80000010 pc=80000010 sstatus=200000000
# An LR of the first word of a ROM.
        .word   0x00000297, 0x01028293, 0x10529073, 0x100033af, 0x0000006f
