# The loop of ring.inc, without translation.
        li      x6, 0x80000800
        .include "ring.inc"
