# script guest create a trees/one.dtb
# script guest poke a 0x80000000 PROGRAM
# script guest kick a
# script run 1
# script vserial dump a/uart@10000000
# answer dump a/uart@10000000 lost 0 bytes 1
# answer H
        .word   0x10000337, 0x04800393, 0x00730023, 0x0000006f
