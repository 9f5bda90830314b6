# run 1
# pages 8
# want mode=S x29=cdfc x5=0 x6=3 pc=80000400
# In U: its own page is fetched and loaded, a page of S is neither, and S doesn't fetch the page of U, with SUM too.
        .include "sv39.inc"
        identity
        leads   root, 1, middle, 1              # 0x40000000
        leads   middle, 0, last, 1
        .equ    user_page, 0x80005000
        leads   last, 0, user_page, 0xdf             # V R W X U A D
        leads   last, 1, user_page, 0xcf             # the same page, of S
        la      x31, handler
        csrw    stvec, x31
        li      x29, 0
        li      x11, 1 << 18
        csrs    sstatus, x11                    # SUM
        translate
        la      x31, handler
        li      x10, 0x40000000
        jr      x10                             # c: S fetches no page of U
handler:
        slli    x29, x29, 4
        csrr    x28, scause
        add     x29, x29, x28
        addi    x6, x6, 1
        li      x28, 4
        beq     x6, x28, done
        csrr    x28, sepc
        csrw    sepc, x28
        li      x27, 1
        beq     x6, x27, to_user
        addi    x28, x28, 4
        csrw    sepc, x28
        sret
to_user:
        li      x27, 1 << 8
        csrc    sstatus, x27                    # SPP is U
        csrw    sepc, x10
        sret
done:   addi    x6, x6, -1
        j       stop
        .org    0x400
stop:   j       .
        .org    0x5000
user:   ld      x5, 0x7f8(x10)
        lw      x9, 0(x31)                      # d: the handler's page is S's
        sw      x9, 0(x31)                      # f
        lui     x28, 0x40001
        jr      x28                             # c: the same page, of S
