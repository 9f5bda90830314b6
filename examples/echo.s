# The start and the trap entry of echo.c, which has the rest.

        .equ    STACK, 4096
        .equ    FRAME, 128              # 16 registers of 8 bytes; sp stays a multiple of 16

        .text
        .globl  start

# Entered by the kick: mode S, all registers 0, translation off, all interrupts off.
start:
        la      sp, stack + STACK       # grows down from the end
        la      t0, trap_entry
        csrw    stvec, t0               # a multiple of 4, so direct: every trap goes there
        jal     echo                    # never comes back

# Every trap. The C function keeps sp, gp, tp and s0 to s11; what it may change is saved here. The stack is
# the one of the code that was interrupted, since all of it runs in mode S.
        .balign 4
trap_entry:
        addi    sp, sp, -FRAME
        sd      ra, 0(sp)
        sd      t0, 8(sp)
        sd      t1, 16(sp)
        sd      t2, 24(sp)
        sd      t3, 32(sp)
        sd      t4, 40(sp)
        sd      t5, 48(sp)
        sd      t6, 56(sp)
        sd      a0, 64(sp)
        sd      a1, 72(sp)
        sd      a2, 80(sp)
        sd      a3, 88(sp)
        sd      a4, 96(sp)
        sd      a5, 104(sp)
        sd      a6, 112(sp)
        sd      a7, 120(sp)
        csrr    a0, scause
        jal     trap
        ld      ra, 0(sp)
        ld      t0, 8(sp)
        ld      t1, 16(sp)
        ld      t2, 24(sp)
        ld      t3, 32(sp)
        ld      t4, 40(sp)
        ld      t5, 48(sp)
        ld      t6, 56(sp)
        ld      a0, 64(sp)
        ld      a1, 72(sp)
        ld      a2, 80(sp)
        ld      a3, 88(sp)
        ld      a4, 96(sp)
        ld      a5, 104(sp)
        ld      a6, 112(sp)
        ld      a7, 120(sp)
        addi    sp, sp, FRAME
        sret                            # to sepc, with interrupts on again

        .bss
        .balign 16
stack:  .space  STACK
