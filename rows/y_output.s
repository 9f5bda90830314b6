# script guest create a trees/one.dtb
# script guest poke a 0x80000000 PROGRAM
# script vserial dump a/uart@10000000
# script guest kick a
# script run 1
# script vserial dump a/x
# script vserial dump b/uart@10000000
# script vserial dump a/uart@10000000
# script vserial dump a/uart@10000000
# script guest regs a 0
# answer dump a/uart@10000000 lost 0 bytes 0
# answer
# answer kicked a
# answer refused device
# answer refused guest
# answer dump a/uart@10000000 lost 0 bytes 3
# answer \x0a\x5c\xff
# answer dump a/uart@10000000 lost 0 bytes 0
# answer
# answer regs a 0 started S pc=0000000080000024
# A dump takes what is kept. Bytes outside of 0x20 to 0x7E and the backslash are shown by their numbers.
        lui     x1, 0x10000
        li      x2, 0x0a
        sb      x2, 0(x1)
        li      x2, 0x5c
        sb      x2, 0(x1)
        sb      x3, 7(x1)                   # the scratch register: nothing is sent
        j       1f
1:      li      x2, -1
        sb      x2, 0(x1)
        j       .
