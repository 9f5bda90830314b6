# run 1
# want x5=25 x6=25 x7=0
# Words without a row: x5 counts them, x6 those that raised cause 2 with stval the word.
        la      x1, handler
        csrw    stvec, x1
        la      x1, words
        la      x2, end
        la      x3, place
again:  lwu     x4, 0(x1)
        sw      x4, 0(x3)
        fence.i
        addi    x5, x5, 1
place:  .word   0
        addi    x7, x7, 1                   # nothing was raised
        j       next
handler:
        csrr    x8, scause
        csrr    x9, stval
        addi    x8, x8, -2
        bnez    x8, next
        bne     x9, x4, next
        addi    x6, x6, 1
next:   addi    x1, x1, 4
        bltu    x1, x2, again
        j       .
words:  .word   0x00000000, 0xffffffff, 0x00000001      # the last is a compressed word
        .word   0x00001067                              # jalr with funct3 1
        .word   0x00002063, 0x00003063                  # branch 2, 3
        .word   0x00007003, 0x00004023                  # load 7, store 4
        .word   0x04001013, 0x04005013, 0x80005013      # slli, srli with funct6 1 and 0x20
        .word   0x0200101b, 0x0200501b, 0x4000101b      # word shifts by 32, slliw with 0x20
        .word   0x0000201b                              # funct3 2
        .word   0x04000033, 0x40001033, 0x40004033      # funct7 2; 0x20 with sll, xor
        .word   0x0200103b, 0x0000203b, 0x4000103b      # word rows that aren't there
        .word   0x0000200f                              # fence with funct3 2
        .word   0x000000f3, 0x00008073, 0x00200073      # ecall with rd 1, rs1 1; uret
        .word   0x30200073, 0x120000f3, 0x10500173      # mret; sfence.vma with rd 1; wfi with rd 2
        .word   0x00004073                              # csr funct3 4
        .word   0x1012a02f, 0x0000102f, 0x0000402f      # lr.w with rs2 1; atomic funct3 1, 4
        .word   0x2800202f, 0xf000202f                  # funct5 5, 0x1e
        .word   0x00000007, 0x00000053, 0x62000073      # float load, float, hfence
end:
