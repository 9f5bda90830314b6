# script guest create a trees/one.dtb
# script guest poke a 0x80000000 PROGRAM
# script guest kick a
# script run 1
# script vserial dump a/uart@10000000
# script guest list
# answer dump a/uart@10000000 lost 0 bytes 9
# answer \x1f ~\x7f[\x5c]\x80\x00
# answer a running vcpus 1
# The edges of what is shown as it is, and that of a store's register the low byte alone counts.
        lui     x1, 0x10000
        .irp    byte, 0x1f, 0x20, 0x7e, 0x7f, 0x5b, 0x5c, 0x5d, 0x180, -256
        li      x2, \byte
        sb      x2, 0(x1)
        .endr
        j       .
