# script clock 50
# script clock 50
# script clock 49
# script guest flat a 1
# script guest poke a 0x80000000 PROGRAM
# script guest kick a
# script tick 7
# script run 2
# script clock 1000
# script clock 63
# script run 1
# script tick 18446744073709551615
# script run 1
# script tick 0
# script run 2
# script guest regs a 0
# answer clock 50
# answer clock 50
# answer refused clock
# answer created a vcpus 1 regions 1 frames 3
# answer tick 7
# answer ran 2 idle 0 now 64
# answer clock 1000
# answer refused clock
# answer ran 1 idle 0 now 1007
# answer tick 18446744073709551615
# answer ran 1 idle 0 now 1006
# answer tick 0
# answer ran 2 idle 0 now 1006
# want x5=0 x6=7 x7=3b6 x8=3bd x9=3bc x10=3bc state=started
# The clock is never set back, but a tick may carry it past 2^64. A guest that is born at clock 50 reads 0
# in its first turn at 50; its later turns are at 57, 1000, 1007, and twice 1006, which the last one can't
# tell.
        rdtime  x5
1:      rdtime  x6
        beq     x5, x6, 1b
1:      rdtime  x7
        beq     x6, x7, 1b
1:      rdtime  x8
        beq     x7, x8, 1b
1:      rdtime  x9
        beq     x8, x9, 1b
1:      rdtime  x10
        beq     x9, x10, 1b
        j       .
