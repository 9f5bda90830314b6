#!/bin/sh
# Builds pair.c and pair.s, and puts the image, which pair.xv loads, into pair.bin beside them. Of what isn't
# in every system it needs only the packages gcc-riscv64-linux-gnu and binutils-riscv64-linux-gnu (Debian 12;
# the compiler of another release may make other bytes, which do the same):
#     sh pair.sh
set -eu
here=$(dirname -- "$0")
work=$(mktemp -d)
trap 'rm -rf -- "$work"' EXIT

# One machine for both: no compressed instructions, no relaxation, which would need a global pointer, and no
# tables for unwinding, which nobody reads.
riscv64-linux-gnu-as -march=rv64ima_zicsr_zifencei -mabi=lp64 -mno-relax -o "$work/s.o" "$here/pair.s"
riscv64-linux-gnu-gcc -O2 -Wall -Wextra -march=rv64ima_zicsr_zifencei -mabi=lp64 -mcmodel=medany -mno-relax \
    -ffreestanding -fno-pic -msmall-data-limit=0 -fno-asynchronous-unwind-tables -c -o "$work/c.o" "$here/pair.c"

# The start comes first. The stacks are in .bss, which the image leaves out: memory is 0 anyway.
riscv64-linux-gnu-ld --no-relax -Ttext=0x80000000 -e start -o "$work/pair.elf" "$work/s.o" "$work/c.o"
riscv64-linux-gnu-objcopy -O binary "$work/pair.elf" "$here/pair.bin"
