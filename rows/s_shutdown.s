# script guest create a trees/whole.dtb
# script guest poke a 0x80000000 PROGRAM
# script guest kick a
# script run 4
# script guest list
# script guest mem a 0x80001000 16
# script guest regs a 0
# script guest regs a 1
# script vserial input a/uart@10000000 5a
# script run 2
# answer ran 4 idle 2 now 400
# answer a halted shutdown vcpus 2
# answer mem a 0000000080001000 fd00fd00fd00fd00fd00fd00fd000000
# answer regs a 0 started S ...
# answer regs a 1 started S ...
# answer input a/uart@10000000 1
# answer ran 2 idle 2 now 600
# want x8=0 x10=500000000 x11=700000001 x12=3 x16=0 x17=53525354 pc=80000ffc state=started
# Types and reasons that are refused, of which the low 32 bits count: 3, 2^32 - 1, one of a vendor, reason 2
# with each type, and a bit 32 beside type 3. Then a shutdown for the reason of a failure, by VCPU 1, while
# VCPU 0 is ready: no VCPU has a turn any more. a0 and a1 of the caller are its arguments.
        .include "calls.inc"
        bnez    x10, second
        start   1, second
        j       .
second: keep_at 0x80001000
        kept    RESET, 0, 3, 0
        kept    RESET, 0, 0xffffffff, 1
        kept    RESET, 0, 0xf0000000, 0
        kept    RESET, 0, 0, 2
        kept    RESET, 0, 1, 2
        kept    RESET, 0, 2, 0xe0000000
        kept    RESET, 0, 0x100000003, 0
        li      x10, 0x500000000
        li      x11, 0x700000001
        li      x12, 3
        j       last
        .org    0xff8
last:   ecall
        j       .
