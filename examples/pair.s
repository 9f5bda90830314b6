# The start of both VCPUs of pair.c, which has the rest, and what becomes of a trap.

        .equ    STACK_SHIFT, 12         # 4,096 bytes for each VCPU
        .equ    FINISHER, 0x100000
        .equ    FINISH_FAIL, 0x3333     # with a code in the upper 16 bits

        .text
        .globl  start

# Entered by the kick as VCPU 0, and by hart_start as VCPU 1: mode S, translation off, all interrupts off, and
# all registers 0 but a0, the VCPU's number, and a1, what VCPU 0 gave to hart_start.
start:
        la      t0, trap
        csrw    stvec, t0               # a multiple of 4, so direct: every trap goes there
        la      sp, stacks
        addi    t0, a0, 1               # a stack grows down from its end
        slli    t0, t0, STACK_SHIFT
        add     sp, sp, t0
        bnez    a0, 1f
        jal     first                   # never comes back
1:      mv      a0, a1
        jal     second                  # nor does this one

# No trap is wanted: what interrupts there are end a WFI, and none is taken. The guest ends as failed, with scause.
        .balign 4
trap:
        csrr    t0, scause
        slli    t0, t0, 16
        li      t1, FINISH_FAIL
        or      t0, t0, t1
        li      t1, FINISHER
        sw      t0, 0(t1)               # the last step

        .bss
        .balign 16
stacks: .space  2 << STACK_SHIFT
