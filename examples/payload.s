# A small system for one flat guest: a supervisor with a trap handler, and a user program that it serves.
#
# The user program asks the supervisor for the bytes of a text, one call each, and makes their CRC-32. It
# sorts a table, makes a factorial of 128 bits, and lets the supervisor interrupt it once. Then it hands
# its results over, and the supervisor stays in a jump to itself with these registers, all others being 0:
#
#     a0  x10   CRC-32 of "123456789"                    cbf43926
#     a1  x11   30!, low 64 bits                         865df5dd54000000
#     a2  x12   30!, high 64 bits                        00000d13f6370f96
#     a3  x13   sum of the sorted table's numbers,       4434 = 1152 hexadecimal
#               each times its place from 1 on
#     a4  x14   calls of the user program                12 = c: nine bytes, the end, raise, finish
#     a5  x15   interrupts that were taken               1
#     a6  x16   least number of the table                -41 = ffffffffffffffd7
#     a7  x17   greatest number of the table             202 = ca
#
# payload.sh assembles this, and prints the script that runs it.

        .equ    CALL_BYTE, 1            # a0: place in the text; answers the byte there, or -1 past the end
        .equ    CALL_RAISE, 2           # a software interrupt, taken before the next user instruction
        .equ    CALL_FINISH, 3          # a0 to a3, a6 and t6 are the results; never comes back

        .equ    TEXT_LENGTH, 9          # of the data at the end
        .equ    TABLE_LENGTH, 10

        .equ    CAUSE_USER_CALL, 8
        .equ    SOFTWARE, 2             # bit 1: of sip the software interrupt, of sie its enable

        .text
        .globl  start

# --- the supervisor ------------------------------------------------------------------------------------

# Entered by the kick: mode S, all registers 0, translation off.
start:
        la      t0, trap
        csrw    stvec, t0               # a multiple of 4, so direct: every trap goes there
        la      t0, frame
        csrw    sscratch, t0            # while the user program runs, sscratch holds the frame's address
        csrsi   sie, SOFTWARE
        la      t0, user
        csrw    sepc, t0
        sret                            # SPP is 0 from reset on, so this enters mode U

# Every trap. The handler may use t0 to t2 alone, and gives them back; a call's answer goes to a0.
        .balign 4
trap:
        csrrw   tp, sscratch, tp        # the frame's address against the user's tp
        sd      t0, 0(tp)
        sd      t1, 8(tp)
        sd      t2, 16(tp)
        csrr    t0, scause
        bltz    t0, interrupt           # the top bit tells interrupts from exceptions
        li      t1, CAUSE_USER_CALL
        bne     t0, t1, unexpected

        csrr    t0, sepc
        addi    t0, t0, 4               # go on after the ECALL
        csrw    sepc, t0
        li      t0, 1
        la      t1, calls
        amoadd.d zero, t0, (t1)
        li      t0, CALL_BYTE
        beq     a7, t0, call_byte
        li      t0, CALL_RAISE
        beq     a7, t0, call_raise
        li      t0, CALL_FINISH
        beq     a7, t0, finish
        li      a0, -2                  # no such call
        j       leave

call_byte:
        li      t1, TEXT_LENGTH
        mv      t0, a0
        li      a0, -1
        bgeu    t0, t1, leave           # unsigned, so that negative places are past the end too
        la      t2, text
        add     t2, t2, t0
        lbu     a0, 0(t2)
        j       leave

call_raise:
        csrsi   sip, SOFTWARE           # taken after SRET: SIE is 0 in the handler, and doesn't count in U
        j       leave

interrupt:
        csrci   sip, SOFTWARE           # else it would be taken again at once
        la      t0, interrupts
1:      lr.d    t1, (t0)                # the pair fails where a turn ends between its halves; then again
        addi    t1, t1, 1
        sc.d    t2, t1, (t0)
        bnez    t2, 1b

leave:
        ld      t0, 0(tp)
        ld      t1, 8(tp)
        ld      t2, 16(tp)
        csrrw   tp, sscratch, tp
        sret

# A trap that this program doesn't make: scause, sepc and stval tell it.
unexpected:
        j       unexpected

finish:
        ld      a4, calls
        ld      a5, interrupts
        mv      a7, t6
        .irp    n, 1, 2, 3, 4, 5, 6, 7, 8, 9
        li      x\n, 0
        .endr
        .irp    n, 18, 19, 20, 21, 22, 23, 24, 25, 26, 27, 28, 29, 30, 31
        li      x\n, 0
        .endr
stay:
        j       stay

# --- the user program ----------------------------------------------------------------------------------

user:
        jal     ra, crc_of_text
        mv      s2, a0

        la      a0, table
        li      a1, TABLE_LENGTH
        jal     ra, sort
        la      a0, table
        li      a1, TABLE_LENGTH
        jal     ra, weigh
        mv      s3, a0

        li      a7, CALL_RAISE
        ecall                           # the interrupt comes here, before the next instruction

        li      a0, 30
        jal     ra, factorial           # a1 and a2
        mv      a0, s2
        mv      a3, s3
        la      t0, table
        ld      a6, 0(t0)
        ld      t6, 8 * (TABLE_LENGTH - 1)(t0)
        li      a7, CALL_FINISH
        ecall
        j       .                       # not reached

# a0 = CRC-32 of the supervisor's text: polynomial 0x04c11db7, bits taken from the low end, all ones at
# the start, complemented at the end.
crc_of_text:
        li      s0, 0xffffffff          # the remainder
        li      s1, 0                   # the place
        li      t0, 0xedb88320          # the polynomial, bits reversed
next_byte:
        mv      a0, s1
        li      a7, CALL_BYTE
        ecall
        bltz    a0, end_of_text
        xor     s0, s0, a0
        li      t1, 8
next_bit:
        andi    t2, s0, 1
        srli    s0, s0, 1
        neg     t2, t2                  # all ones where the bit was 1, so that no branch is needed
        and     t2, t2, t0
        xor     s0, s0, t2
        addi    t1, t1, -1
        bnez    t1, next_bit
        addi    s1, s1, 1
        j       next_byte
end_of_text:
        not     a0, s0
        slli    a0, a0, 32              # 32 bits, with zeros above
        srli    a0, a0, 32
        ret

# Sorts the a1 signed numbers at a0, the least first, by insertion: t0 is the place of the number that is
# put among those before it, all sorted already.
sort:
        slli    a1, a1, 3
        add     a1, a0, a1              # the table's end
        addi    t0, a0, 8
1:      bgeu    t0, a1, 4f
        ld      t1, 0(t0)
        mv      t2, t0
2:      beq     t2, a0, 3f
        ld      t3, -8(t2)
        ble     t3, t1, 3f
        sd      t3, 0(t2)               # a greater one goes up by a place
        addi    t2, t2, -8
        j       2b
3:      sd      t1, 0(t2)
        addi    t0, t0, 8
        j       1b
4:      ret

# a0 = the sum of the a1 numbers at a0, each times its place from 1 on.
weigh:
        mv      t0, a0
        li      a0, 0
        li      t1, 0
1:      addi    t1, t1, 1
        ld      t2, 0(t0)
        mul     t2, t2, t1
        add     a0, a0, t2
        addi    t0, t0, 8
        blt     t1, a1, 1b
        ret

# a2 * 2^64 + a1 = a0!, for a0 up to 34.
factorial:
        li      a1, 1
        li      a2, 0
1:      mulhu   t0, a1, a0              # what the low half carries into the high one
        mul     a1, a1, a0
        mul     a2, a2, a0
        add     a2, a2, t0
        addi    a0, a0, -1
        bnez    a0, 1b
        ret

# --- data ----------------------------------------------------------------------------------------------

text:   .ascii  "123456789"
        .balign 8, 0
table:  .dword  58, -3, 202, 17, 0, -41, 96, 17, 5, 120
calls:  .dword  0
interrupts:
        .dword  0
frame:  .dword  0, 0, 0                 # t0 to t2 of the user program, while the handler runs
