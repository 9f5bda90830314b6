#!/usr/bin/env python3
"""Compares a program with reference.py on random guests of trees: PROGRAM, a seed and how many.

    python3 random_machines.py ../crates/xv_cli/out/xv_cli 1 100

The trees are those under trees/ that have a UART. A guest has some 100 random pieces behind a start that sets
a handler: accesses to each register of the devices, by each kind of instruction and width; calls to firmware,
of functions that there are more often than not; CSRs of interrupts, waits, and random instructions of
random_programs.py. What one VCPU starts goes on anywhere in the pieces. The handler counts the traps, sums
their causes, and goes on behind an exception; of an interrupt it disables the cause. The script runs turns,
and gives input, sets the clock and the tick, and shows VCPUs, output and the list of guests between them, in
a random order. Nothing of this is in the gate.
"""

import random
import struct
import sys

from random_programs import (CODE, DATA, HOLE, SRET, WFI, addi, auipc, b_type, compare, csr, i_type, j_type,
                             lui, r_type, s_type, shift_left, word)

TREES = {'whole': 2, 'eight': 8, 'one': 1, 'two': 1, 'no_plic': 1, 'alias': 1}     # with their VCPUs
UARTS = {'two': ['uart@10000000', 'uart@10001000']}
PIECES_END, HANDLER, DATA_WORD, WORDS = 600, 0x600, 0x700, 0x780                # in words of the program
START = 0x80000000

BASE, VALUE = 28, 29                                    # registers of one access
UART, SECOND_UART, PLIC, FINISHER = 0x10000, 0x10001, 0xc000, 0x100                 # page numbers
PENDING, ENABLES, CONTEXT = PLIC + 1, PLIC + 2, PLIC + 0x200
PLACES = [(UART, 1, range(9)), (UART, 1, range(9)), (UART, 1, range(9)), (SECOND_UART, 1, range(0, 32, 4)),
          (PLIC, 4, [0, 40, 40, 160, 252, 256]), (PENDING, 4, [0, 4, 8]), (ENABLES, 4, [0, 0, 4, 128, 132]),
          (CONTEXT, 4, [0, 4, 4]), (CONTEXT + 1, 4, [0, 4]), (CONTEXT + 7, 4, [0, 4]), (FINISHER, 4, [0, 4])]
ENDINGS = [0x5555, 0x3333, 0x73333, 0x7777, 0x7777]
WIDTHS = {1: 0, 2: 1, 4: 2, 8: 3}                       # funct3 of a store, and of a load with its sign

BASE_CALLS, TIME, IPI, FENCE, HSM, RESET = 0x10, 0x54494D45, 0x735049, 0x52464E43, 0x48534D, 0x53525354
MASKS = [0, 1, 2, 3, 3, 0x80, 0xff, 1 << 11, -1]


def constant(register, value):
    """The words that put a number into a register, from -2048 to 2^32 - 1."""
    if -0x800 <= value < 0x800:
        return [addi(register, 0, value & 0xfff)]
    high, rest = (value + 0x800) >> 12 & 0xfffff, value & 0xfff
    words = [lui(register, high), i_type(0x1b, 0, register, register, rest)]
    if value < 1 << 31:
        return words
    return words + [shift_left(register, register, 32), i_type(0x13, 5, register, register, 32)]   # no sign


def at_code(words):
    """The address of a random word of the pieces, seldom of none."""
    return START + 4 * random.randrange(16, words) + random.choice([0, 0, 0, 0, 0, 0, 2])


def stored(page):
    if page == FINISHER:
        return random.choice(ENDINGS) if random.random() < .3 else random.randrange(0x7f)
    return random.choice([0, 1, 2, 3, 7, 10, 40, 0x1f, 0x41, 0x80, 0xc7, 0x400, 0x10000, -1,
                          random.randrange(256)])


def device_access():
    """An access to a device: by the width that the device takes more often than not."""
    page, width, offsets = random.choice(PLACES)
    offset = random.choice(list(offsets)) if random.random() < .95 else random.randrange(4096) & ~(width - 1)
    offset = offset - 4096 if offset >= 2048 else offset
    if random.random() < .1:
        width = random.choice([1, 2, 4, 8])
    words = constant(VALUE, stored(page)) + [lui(BASE, page)]
    register = random.choice([VALUE, 30, 31])
    kind = random.random()
    if kind < .45:
        return words + [s_type(WIDTHS[width], BASE, VALUE, offset)]
    if kind < .95:
        unsigned = 4 if width < 8 and random.random() < .5 else 0
        return words + [i_type(0x03, WIDTHS[width] + unsigned, register, BASE, offset)]
    if kind < .99:
        return words + [r_type(0x2f, 2, random.choice([2, 3, 0, 1]) << 2, register, BASE, VALUE)]
    return words + [i_type(0x67, 0, 1, BASE, 0)]


def sent():
    """A byte that is sent by the first UART: its divisor is out of the way."""
    return [lui(BASE, UART), addi(VALUE, 0, 3), s_type(0, BASE, VALUE, 3), *constant(VALUE, random.randrange(256)),
            s_type(0, BASE, VALUE, 0)]


def start(words):
    """A call that starts the second VCPU."""
    numbers = [(17, HSM), (16, 0), (10, 1), (11, at_code(words)), (12, 0)]
    return [made for register, value in numbers for made in constant(register, value)] + [0x73]


def call(words):
    """A call to firmware: the numbers of the function, and arguments that fit it or nearly so."""
    mask, base = random.choice(MASKS), random.choice([0, 0, 0, 1, 7, 8, -1])
    number = random.choice([0, 1, 1, 1, 2, 7, 8])
    extension, function, a0, a1, a2 = random.choice([
        (BASE_CALLS, random.randrange(8), random.choice([TIME, IPI, 9, RESET]), 0, 0),
        (TIME, 0, random.choice([0, 50, 150, 400, 1000, -1]), 0, 0),
        (TIME, 0, random.choice([0, 50, 150, 400, 1000, -1]), 0, 0),
        (IPI, 0, mask, base, 0), (IPI, 0, mask, base, 0),
        (FENCE, random.randrange(8), mask, base, 0),
        (HSM, 0, number, at_code(words), random.randrange(64)),
        (HSM, 0, number, at_code(words), random.randrange(64)),
        (HSM, 0, number, random.choice([0x90000000, 0x10000000, START + 0x7ffffc, 0x100, -4]), 0),
        (HSM, 2, number, 0, 0), (HSM, 2, number, 0, 0),
        (HSM, 3, random.choice([1, 0x0fffffff, 0x10000000, -1, 0x80000000]), 0, 0),
        (HSM, random.choice([1, 4]), 0, 0, 0),
        (RESET, random.choice([0, 0, 1]), random.choice([1, 1, 2, 3, 0]), random.choice([0, 1, 2]), 0),
        (random.choice([0, 1, 8, 11, 0x0A000000]), random.randrange(3), mask, base, 0),
    ])
    if extension in (HSM, RESET) and function == (1 if extension == HSM else 0) and random.random() < .5:
        extension = 9                                   # few stop or end
    numbers = [(17, extension), (16, function), (10, a0), (11, a1), (12, a2)]
    return [made for register, value in numbers for made in constant(register, value)] + [0x73]


def interrupts():
    """Words about interrupts: enabled, disabled, made pending or read."""
    bits = constant(BASE, random.choice([2, 0x20, 0x200, 0x220, 0x222, 0x222]))
    return random.choice([
        bits + [csr(random.choice([1, 2, 2, 2, 3]), 30, BASE, 0x104)], bits + [csr(2, 30, BASE, 0x144)],
        [csr(random.choice([6, 6, 7]), 30, 2, 0x100)], [csr(random.choice([6, 7]), 30, 2, 0x144)],
        [csr(2, 30, 0, 0xc01)],
    ])


def wait():
    """A WFI or a suspend, more often than not with an end: interrupts enabled, and a timer."""
    ends = constant(BASE, random.choice([0x20, 0x222, 0x202])) + [csr(2, 0, BASE, 0x104)]
    timer = [csr(2, 10, 0, 0xc01), addi(10, 10, random.randrange(-50, 300)), *constant(17, TIME),
             addi(16, 0, 0), 0x73]
    suspend = [*constant(17, HSM), addi(16, 0, 3), addi(10, 0, 0), 0x73]
    words = [] if random.random() < .02 else ends if random.random() < .05 else ends + timer
    return words + random.choice([[WFI], [WFI], suspend])


def pieces(words):
    """The words of the random pieces, and a jump back to their begin."""
    made = []
    while len(made) < words - 1:
        kind = random.random()
        piece = (device_access() if kind < .4 else sent() if kind < .45 else call(words) if kind < .65
                 else interrupts() if kind < .77 else wait() if kind < .8
                 else [word(lambda: random.randrange(5, 16))])
        made += piece if len(made) + len(piece) < words else [addi(0, 0, 0)]
    return made + [j_type(0, -4 * (words - 1))]


def program():
    """The bytes of a program: its start, its pieces, its handler, and data."""
    words = [auipc(DATA), addi(DATA, DATA, 0x7ff), addi(DATA, DATA, 1), lui(HOLE, 0x90000),
             auipc(CODE), addi(CODE, CODE, 0x100)]
    words += constant(23, START + 4 * HANDLER) + [csr(1, 0, 23, 0x105)]
    words += start(PIECES_END) if random.random() < .6 else []
    words += pieces(PIECES_END - len(words))
    words += [addi(0, 0, 0)] * (HANDLER - len(words))
    words += [addi(25, 25, 1), csr(2, 18, 0, 0x142), r_type(0x33, 0, 0, 26, 26, 18),
              csr(2, 19, 0, 0x143), r_type(0x33, 4, 0, 27, 27, 19),
              b_type(5, 18, 0, 24),             # no interrupt: six words on
              addi(19, 0, 1), r_type(0x33, 1, 0, 19, 19, 18), csr(3, 0, 19, 0x104), SRET, addi(0, 0, 0),
              csr(2, 18, 0, 0x141), addi(18, 18, 4), csr(1, 0, 18, 0x141), SRET]
    words += [addi(0, 0, 0)] * (DATA_WORD - len(words))
    words += [random.randrange(1 << 32) for _ in range(WORDS - len(words))]
    return b''.join(struct.pack('<I', made) for made in words)


def line(vcpus, uarts):
    """A line behind the kick."""
    return random.choice([
        'run %d' % random.choice([1, 1, 2, 3, 5]), 'run %d' % random.choice([1, 1, 2, 3, 5]),
        'vserial input a/%s %s' % (random.choice(uarts), random.randbytes(random.randrange(1, 24)).hex()),
        'vserial input a/%s %s' % (random.choice(uarts), random.randbytes(random.randrange(1, 24)).hex()),
        'vserial dump a/%s' % random.choice(uarts), 'guest regs a %d' % random.randrange(vcpus), 'guest list',
        'clock %d' % random.randrange(4000), 'tick %d' % random.choice([10, 100, 1000]),
    ])


def script():
    """The script of a random guest: its end shows all of it."""
    tree = random.choice(list(TREES))
    vcpus, uarts = TREES[tree], UARTS.get(tree, ['uart@10000000'])
    lines = ['clock %d' % random.choice([0, 0, 7]), 'guest create a trees/%s.dtb' % tree,
             'guest poke a 0x80000000 %s' % program().hex(), 'guest kick a']
    lines += [line(vcpus, uarts) for _ in range(random.randrange(8, 24))] + ['run 1', 'guest list']
    lines += ['guest regs a %d' % number for number in range(vcpus)]
    lines += ['vserial dump a/%s' % it for it in uarts]
    return ('\n'.join(lines + ['guest digest a']) + '\n').encode()


if __name__ == '__main__':
    if len(sys.argv) != 4:
        sys.exit(__doc__)
    sys.exit(compare(script, *sys.argv[1:]))
