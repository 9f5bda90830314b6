#!/bin/sh
# Assembles payload.s, puts its bytes into payload.bin beside it, and prints the script that pokes and
# runs them. Of what isn't in every system it needs only the package binutils-riscv64-linux-gnu (Debian 12
# or later):
#     sh payload.sh > payload.xv
set -eu
here=$(dirname -- "$0")
work=$(mktemp -d)
trap 'rm -rf -- "$work"' EXIT

# No compressed instructions, and no relaxation, which would need a global pointer.
riscv64-linux-gnu-as -march=rv64ima_zicsr -mabi=lp64 -mno-relax -o "$work/payload.o" "$here/payload.s"
riscv64-linux-gnu-ld --no-relax -Ttext=0x80000000 -e start -o "$work/payload.elf" "$work/payload.o"
riscv64-linux-gnu-objcopy -O binary -j .text "$work/payload.elf" "$here/payload.bin"

# The bytes in the order of memory, two hexadecimal digits each.
hex=$(od -An -v -tx1 "$here/payload.bin" | tr -d ' \n')

cat <<END
guest flat payload 4
guest poke payload 0x80000000 $hex
guest kick payload
run 3
guest regs payload 0
END
