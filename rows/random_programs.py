#!/usr/bin/env python3
"""Compares a program with reference.py on random guests: PROGRAM, a seed and how many.

    python3 random_programs.py ../crates/xv_cli/out/xv_cli 1 100

A guest has some 240 random words of the instruction table, and a few that are none, behind a start that
sets a handler of traps and addresses of memory and of a hole; half of them run in U. The handler counts the
traps, sums their causes, mixes their stval, and goes on behind an exception. Half of the guests translate by
Sv39: their code is led by a leaf of 1 GiB, and most addresses by random entries in three tables, which the
guest may write. Nothing of this is in the gate.
"""

import pathlib
import random
import struct
import subprocess
import sys

HERE = pathlib.Path(__file__).parent
REGISTERS = [0, 1, 2, 5, 6, 7, 8, 9, 10, 11, 12, 13, 14, 15, 16, 17, 28, 29, 30, 31]
DATA, HOLE, CODE = 3, 4, 22         # registers that hold addresses; 20 and 21 are near DATA
FLAGS = 23                          # SUM and MXR, in a guest that translates
SUM_MXR = 0xc0                      # bits 31:12 of both
PROGRAM, ROOT, MIDDLE, LAST, DATA_PAGE = range(0x80000, 0x80005)       # page numbers
ENTRIES = 16                        # how many entries of a table are drawn
CSRS = [0x100, 0x104, 0x105, 0x106, 0x10a, 0x140, 0x141, 0x142, 0x143, 0x144, 0x180, 0xc01,
        0x300, 0x800, 0xc00, 0xc02]     # the last four aren't there
SELF = 0x0000006f                   # a jump to itself
SRET, WFI = 0x10200073, 0x10500073

CODE_WORDS, HANDLER, DATA_WORD, WORDS = 0xf0, 0x100, 0x200, 0x280


def i_type(op, f3, rd, rs1, imm):
    return (imm & 0xfff) << 20 | rs1 << 15 | f3 << 12 | rd << 7 | op


def r_type(op, f3, f7, rd, rs1, rs2):
    return f7 << 25 | rs2 << 20 | rs1 << 15 | f3 << 12 | rd << 7 | op


def s_type(f3, rs1, rs2, imm):
    imm &= 0xfff
    return imm >> 5 << 25 | rs2 << 20 | rs1 << 15 | f3 << 12 | (imm & 31) << 7 | 0x23


def b_type(f3, rs1, rs2, imm):
    return ((imm >> 12 & 1) << 31 | (imm >> 5 & 63) << 25 | rs2 << 20 | rs1 << 15 | f3 << 12
            | (imm >> 1 & 15) << 8 | (imm >> 11 & 1) << 7 | 0x63)


def j_type(rd, imm):
    return (imm >> 1 & 0x3ff) << 21 | (imm >> 11 & 1) << 20 | (imm >> 12 & 0xff) << 12 | rd << 7 | 0x6f


def csr(f3, rd, rs1, number):
    return i_type(0x73, f3, rd, rs1, number)


def addi(rd, rs1, imm):
    return i_type(0x13, 0, rd, rs1, imm)


def auipc(rd):
    return rd << 7 | 0x17


def lui(rd, high):
    return high << 12 | rd << 7 | 0x37


def shift_left(rd, rs1, amount):
    return i_type(0x13, 1, rd, rs1, amount)


def near():
    """An offset, aligned more often than not."""
    return random.choice([random.randrange(-64, 64) * 8, random.randrange(-300, 300)])


def word(register=lambda: random.choice(REGISTERS), paged=False):
    """One random word: the weights are the last numbers below which each kind is drawn."""
    if paged and random.random() < .12:
        return random.choice([lui(DATA, paged_address()), lui(DATA, paged_address()),
                              lui(CODE, paged_address()), csr(2, 0, FLAGS, 0x100), csr(3, 0, FLAGS, 0x100)])
    kind = random.random()
    base = random.choice([DATA, DATA, DATA, HOLE])
    if kind < .22:
        return r_type(random.choice([0x33, 0x3b]), random.randrange(8), random.choice([0, 1, 0x20]),
                      register(), register(), register())
    if kind < .36:
        amount = random.randrange(64)
        return i_type(random.choice([0x13, 0x1b]), random.randrange(8), register(), register(),
                      random.choice([random.randrange(4096), amount, 0x400 | amount]))
    if kind < .40:
        return random.randrange(1 << 20) << 12 | register() << 7 | random.choice([0x37, 0x17])
    if kind < .52:
        return i_type(0x03, random.randrange(8), register(), base, near())
    if kind < .62:
        return s_type(random.randrange(5), base, register(), near())
    if kind < .72:
        f5 = random.choice([2, 3, 3, 0, 1, 4, 8, 12, 16, 20, 24, 28])
        return r_type(0x2f, random.choice([2, 3]), f5 << 2 | random.randrange(4), register(),
                      random.choice([DATA, DATA, HOLE, 20, 21]), random.choice([0, register()]))
    if kind < .80:
        return b_type(random.randrange(8), register(), register(), random.choice([4, 8, 12, 6, 16]))
    if kind < .83:
        return j_type(register(), random.choice([4, 8, 12, 6]))
    if kind < .85:
        return i_type(0x67, 0, register(), random.choice([CODE, DATA]), random.choice([0, 1, 2, 4]))
    if kind < .94:
        return csr(random.choice([1, 2, 3, 5, 6, 7]), register(), random.choice([0, random.randrange(32)]),
                   random.choice(CSRS))
    if kind < .985:
        return random.choice([0x73, 0x100073, 0x12000073, 0x12108073, 0x0f, 0x100f, SRET, WFI])
    return random.randrange(1 << 32)


def paged_address():
    """An address that random entries lead: of the first pages that the last table leads, or of a leaf of 2 MiB
    or of 1 GiB."""
    return random.choice([0x40000 + random.randrange(ENTRIES), 0x40000 + random.randrange(ENTRIES),
                          0x40000 + random.randrange(ENTRIES) * 512, random.randrange(2) << 18])


def entry():
    """A random entry of a page table: more often than not a leaf of a page of data, or a pointer."""
    page = random.choice([DATA_PAGE, DATA_PAGE, DATA_PAGE + 1, LAST, MIDDLE, ROOT, PROGRAM, 0x80200, 0x90000])
    low = random.choice([0xc7, 0xcf, 0xd7, 0xdf, 1, random.randrange(256)])
    more = random.choice([0, 0, 0, 0, 1 << 8, 1 << 54, 1 << 63])
    return page << 10 | low | more


def tables():
    """The three tables of a guest that translates: the page and the first words of each."""
    root = [entry(), MIDDLE << 10 | 1, PROGRAM << 10 | 0xcf, PROGRAM << 10 | 0xdf]
    middle = [LAST << 10 | 1] + [entry() for _ in range(ENTRIES - 1)]
    last = [entry() for _ in range(ENTRIES)]
    return [(ROOT, root), (MIDDLE, middle), (LAST, last)]


def translates(user):
    """The start's words that turn translation on. In U the code goes on under the second leaf of its pages."""
    words = [lui(24, ROOT >> 12), addi(24, 24, ROOT & 0xfff), addi(FLAGS, 0, 8), shift_left(FLAGS, FLAGS, 60),
             r_type(0x33, 6, 0, 24, 24, FLAGS), csr(1, 0, 24, 0x180)]
    words += elsewhere(CODE) if user else []
    return words + [lui(FLAGS, SUM_MXR), lui(DATA, paged_address())]


def elsewhere(register):
    """1 GiB is added to an address in a register."""
    return [lui(19, 0x40000), r_type(0x33, 0, 0, register, register, 19)]


def guest(paged):
    """The words of a guest: its start, its code, its handler, and data."""
    words = [auipc(DATA), addi(DATA, DATA, 0x7ff), addi(DATA, DATA, 1),
             random.choice([0x90000237, 0x80001237, addi(HOLE, 0, 0)]),
             addi(20, DATA, 8), addi(21, DATA, random.choice([0, 1, 2, 4, 12]))]
    words += [auipc(23), addi(23, 23, 4 * (HANDLER - len(words))), csr(1, 0, 23, 0x105)]
    words += [auipc(CODE), addi(CODE, CODE, 0x100)]
    user = random.random() < .5
    words += translates(user) if paged else []
    if user:                                                    # the rest in U
        moved = elsewhere(24) if paged else []
        words += [auipc(24), addi(24, 24, 16 + 4 * len(moved)), *moved, csr(1, 0, 24, 0x141), SRET]
    if random.random() < .4:                                    # software interrupts enabled
        words += [csr(6, 0, 2, 0x104)]
    words += [word(paged=paged) for _ in range(CODE_WORDS - len(words))]
    words += [SELF] * (HANDLER - len(words))
    words += [addi(25, 25, 1), csr(2, 18, 0, 0x142), r_type(0x33, 0, 0, 26, 26, 18),
              csr(2, 18, 0, 0x143), r_type(0x33, 4, 0, 27, 27, 18),
              csr(2, 19, 0, 0x142), b_type(4, 19, 0, 20),       # an interrupt: its bit is cleared
              csr(2, 18, 0, 0x141), addi(18, 18, 4), csr(1, 0, 18, 0x141), SRET,
              csr(7, 0, 2, 0x144), SRET]
    words += [SELF] * (DATA_WORD - len(words))
    edges = [0, 1, 0x7fffffff, 0x80000000, 0xffffffff]
    words += [random.choice(edges + [random.randrange(1 << 32)]) for _ in range(WORDS - len(words))]
    return b''.join(struct.pack('<I', w) for w in words)


def image(paged):
    """The bytes of a random guest, its tables behind its program."""
    pieces = [(PROGRAM, guest(paged))]
    pieces += [(page, struct.pack('<%dQ' % len(words), *words)) for page, words in tables()] if paged else []
    whole = b''
    for page, piece in pieces:
        whole = whole.ljust((page - PROGRAM) * 4096, b'\0') + piece
    return whole


def script():
    """The script of a random guest."""
    paged = random.random() < .5
    return ('guest flat a %d\nguest poke a 0x80000000 %s\nguest kick a\nrun %d\nguest regs a 0\n'
            % (8 if paged else 1, image(paged).hex(), random.choice([1, 1, 2, 3]))).encode()


def compare(script, program, seed, count):
    """Compares program and simulator on so many scripts, and gives the status to end with."""
    random.seed(int(seed))
    different = 0
    for number in range(int(count)):
        text = script()
        answers = [subprocess.run(command, input=text, capture_output=True, cwd=HERE).stdout
                   for command in ([pathlib.Path(program).resolve(), 'boot'], [sys.executable, 'reference.py'])]
        if answers[0] != answers[1] or not answers[0]:
            different += 1
            print('guest %d of seed %s: the answers differ; its script is' % (number, seed))
            print(text.decode(), end='')
    print('%d of %s random guests differ' % (different, count))
    return 1 if different else 0


if __name__ == '__main__':
    if len(sys.argv) != 4:
        sys.exit(__doc__)
    sys.exit(compare(script, *sys.argv[1:]))
