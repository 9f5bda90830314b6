# script guest create a trees/no_file.dtb
# script guest create a trees/one.dtb
# script guest create a trees/one.dtb
# script guest load a 0x80000000 trees/no_file.dtb
# script guest load a 0x807fffff trees/one.dtb
# script guest load a 0x10000000 trees/one.dtb
# script guest load b 0 trees/one.dtb
# script guest load a 0x1000 trees/one.dtb
# script guest poke a 0x80000000 PROGRAM
# script guest kick a
# script guest load a 0x1000 trees/one.dtb
# script run 1
# script guest regs a 0
# answer refused missing
# answer created a vcpus 1 regions 5 frames 2071
# answer refused used
# answer refused missing
# answer refused outside
# answer refused outside
# answer refused guest
# answer loaded a ...
# answer kicked a
# answer refused state
# want x5=ffffffffedfe0dd0 x6=11000000
# A file goes into the ROM: here a tree, whose first word is d00dfeed and whose version is 17, the high byte
# first.
        lui     x1, 0x1
        lw      x5, 0(x1)
        lw      x6, 20(x1)
        j       .
