# tree one
# run 1
# want frames=2071 scause=7 sepc=8000000c stval=0 pc=80000010 sstatus=200000100 stvec=80000010
# A store to the first word of a ROM.
        .word   0x00000297, 0x01028293, 0x10529073, 0x00003023, 0x0000006f
