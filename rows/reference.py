#!/usr/bin/env python3
"""A slow and plain simulator of one guest, written from the rules alone, apart from the proved code.

    python3 reference.py < script.xv            reads a script of one guest, prints its answers
    python3 reference.py --trace < script.xv    the same, and one line per lone step on standard error
    python3 reference.py --steps < script.xv    the same, and the count of each row that was run, likewise
    python3 reference.py --table                checks the table: 97 rows, and no word matches two of them

It serves as a check from outside. This file has the lines of a script and turns; hart.py has the hart and
its instructions, calls.py the calls to firmware, devices.py the devices, space.py what addresses lead to,
tree.py the trees. It knows scripts whose lines are in the grammar, and no lines that pause, resume, reset,
halt or destroy.
"""

import hashlib
import re
import sys
from pathlib import Path

from calls import Firmware
from hart import M64, UXL, Hart, check_table, low
from space import PAGE, Region, Space
from tree import PRIORITY, plan_of

RAM = 0x80000000
FREE_FRAMES = 64 * 256 - 64     # of 64 MiB of host memory, the root tables taken off
MOST_TURNS = 1000000


class Malformed(Exception):
    pass


class Refusal(Exception):
    """A line that is refused: the words behind "refused". It has changed nothing."""


# --- words of a line -----------------------------------------------------------------------------------

def number_of(text):
    if re.fullmatch(r'[0-9]{1,20}', text):
        value = int(text)
    elif re.fullmatch(r'0x[0-9A-Fa-f]{1,16}', text):
        value = int(text[2:], 16)
    else:
        raise Malformed(text)
    if value > M64:
        raise Malformed(text)
    return value


def within(least, greatest):
    def read(text):
        value = number_of(text)
        if not least <= value <= greatest:
            raise Malformed(text)
        return value
    return read


def name_of(text):
    if not re.fullmatch(r'[A-Za-z][A-Za-z0-9_-]{0,30}', text):
        raise Malformed(text)
    return text


def device_of(text):
    """A guest's name and that of a device."""
    name, slash, device = text.partition('/')
    if not slash or not re.fullmatch(r'[!-.0-~]{1,63}', device):
        raise Malformed(text)
    return name_of(name), device


def file_of(text):
    if not re.fullmatch(r'[!-~]{1,255}', text):
        raise Malformed(text)
    return text


def hex_of(text):
    if not re.fullmatch(r'([0-9A-Fa-f]{2})+', text):
        raise Malformed(text[:60])
    return bytes.fromhex(text)


# --- the guest -----------------------------------------------------------------------------------------

class Guest:
    def __init__(self, name, regions, vcpus, birth):
        self.name = name
        self.space = Space(regions, len(vcpus))
        self.harts = [Hart(self.space, number, *vcpu) for number, vcpu in enumerate(vcpus)]
        firmware = Firmware(self.space, self.harts)
        for hart in self.harts:
            hart.firmware = firmware
        self.state = 'reset'
        self.birth = birth

    def memory(self, address, length):
        place = self.space.memory(address, length)
        if place is None:
            raise Refusal('outside')
        return place

    def put(self, address, data):
        region, offset = self.memory(address, len(data))
        region.data[offset:offset + len(data)] = data

    def time(self, clock):
        return low(clock - self.birth, 64)

    def pick(self, clock):
        """The hart that has the turn: of the ready ones of the greatest priority the one whose last turn is
        the longest ago, and of several that have had none the first. None where no hart is ready."""
        ready = [hart for hart in self.harts if self.state == 'running' and hart.is_ready(self.time(clock))]
        return min(ready, key=lambda hart: (-hart.priority, hart.last_turn, hart.number), default=None)

    def turn(self, hart, number, clock, watch):
        hart.last_turn = number
        hart.turn(self.time(clock), watch)
        outcome = self.space.outcome
        if outcome == 'reboot':
            self.reboot()
        elif outcome is not None:
            self.state = outcome

    def reboot(self):
        for hart in self.harts:
            hart.reset()
        self.space.reset_devices()
        self.harts[0].state = 'started'


# --- the lines -----------------------------------------------------------------------------------------

def printable(data):
    return ''.join(chr(byte) if 0x20 <= byte <= 0x7E and byte != 0x5C else '\\x%02x' % byte for byte in data)


def pair(key, value):
    return '%s=%016x' % (key, value)


def text_of_registers(name, vcpu, h):
    mode = 'S' if h.supervisor else 'U'
    lines = ['regs %s %d %s %s %s' % (name, vcpu, h.state, mode, pair('pc', h.pc))]
    for i in range(0, 32, 4):
        lines.append(' '.join(pair('x%d' % n, h.x[n]) for n in range(i, i + 4)))
    rows = ((('sstatus', h.sstatus | UXL), ('sie', h.sie), ('ssip', 2 if h.ssip else 0),
             ('stvec', h.stvec)),
            (('sscratch', h.sscratch), ('sepc', h.sepc), ('scause', h.scause), ('stval', h.stval)),
            (('satp', h.satp), ('scounteren', h.scounteren), ('senvcfg', h.senvcfg),
             ('timer', h.compare)))
    return '\n'.join(lines + [' '.join(pair(*entry) for entry in row) for row in rows])


class Session:
    """Each method that a line names makes its answer, or raises Refusal."""

    def __init__(self, watch):
        self.watch = watch
        self.guest = None
        self.clock = 0
        self.tick = 100
        self.turns = 0

    def of(self, name):
        if self.guest is None or self.guest.name != name:
            raise Refusal('guest')
        return self.guest

    def uart(self, name):
        guest = self.of(name[0])
        for region in guest.space.uarts:
            if region.name == name[1]:
                return guest.space, region.device
        raise Refusal('device')

    def born(self, name, regions, vcpus):
        guest = Guest(name, regions, vcpus, self.clock)
        need = guest.space.frames()
        if need > FREE_FRAMES:
            raise Refusal('frames need %d free %d' % (need, FREE_FRAMES))
        self.guest = guest
        return 'created %s vcpus %d regions %d frames %d' % (name, len(vcpus), len(regions), need)

    def unused(self, name):
        if self.guest is not None:
            raise Refusal('used' if self.guest.name == name else 'unbuilt')

    def guest_flat(self, name, pages):
        self.unused(name)
        return self.born(name, [Region('ram', 'ram', RAM, pages * PAGE)], [(RAM, PRIORITY)])

    def guest_create(self, name, file):
        self.unused(name)
        return self.born(name, *plan_of(fetched(file)))

    def loadable(self, name):
        guest = self.of(name)
        if guest.state != 'reset':
            raise Refusal('state')
        return guest

    def guest_load(self, name, address, file):
        guest = self.loadable(name)
        data = fetched(file)
        guest.put(address, data)
        return 'loaded %s %d' % (name, len(data))

    def guest_poke(self, name, address, data):
        self.loadable(name).put(address, data)
        return 'poked %s %d' % (name, len(data))

    def guest_kick(self, name):
        guest = self.loadable(name)         # the same states
        guest.harts[0].put(10, 0)
        guest.harts[0].put(11, 0)
        guest.harts[0].state = 'started'
        guest.state = 'running'
        return 'kicked %s' % name

    def guest_regs(self, name, vcpu):
        guest = self.of(name)
        if vcpu >= len(guest.harts):
            raise Refusal('vcpu')
        return text_of_registers(name, vcpu, guest.harts[vcpu])

    def guest_mem(self, name, address, length):
        region, offset = self.of(name).memory(address, length)
        return 'mem %s %016x %s' % (name, address, region.data[offset:offset + length].hex())

    def guest_digest(self, name):
        real = [region.data for region in self.of(name).space.regions if region.data is not None]
        return 'digest %s %s' % (name, hashlib.sha256(b''.join(real)).hexdigest())

    def guest_audit(self, name):
        return 'audit %s %d' % (name, self.of(name).space.pages())

    def guest_list(self):
        guests = [self.guest] if self.guest is not None else []
        return '\n'.join(['guests %d' % len(guests)]
                         + ['%s %s vcpus %d' % (guest.name, guest.state, len(guest.harts))
                            for guest in guests])

    def vserial_list(self):
        ports = self.guest.space.uarts if self.guest is not None else []
        return '\n'.join(['vserial %d' % len(ports)]
                         + ['%s/%s' % (self.guest.name, region.name) for region in ports])

    def vserial_input(self, port, data):
        space, uart = self.uart(port)
        if len(data) > uart.free():
            raise Refusal('full free %d' % uart.free())
        uart.input(data)
        space.settle()
        return 'input %s/%s %d' % (*port, len(data))

    def vserial_dump(self, port):
        _, uart = self.uart(port)
        data, lost = uart.take_kept()
        return 'dump %s/%s lost %d bytes %d\n%s' % (*port, lost, len(data), printable(data))

    def clock_to(self, value):
        if value < self.clock:
            raise Refusal('clock')
        self.clock = value
        return 'clock %d' % value

    def tick_to(self, value):
        self.tick = value
        return 'tick %d' % value

    def run(self, count):
        if self.turns + count > MOST_TURNS:
            raise Refusal('turns')
        idle = 0
        for _ in range(count):
            self.turns += 1         # turns are numbered from 1, idle ones too
            hart = self.guest.pick(self.clock) if self.guest is not None else None
            if hart is not None:
                self.guest.turn(hart, self.turns, self.clock, self.watch)
            else:
                idle += 1
            self.clock = low(self.clock + self.tick, 64)
        return 'ran %d idle %d now %d' % (count, idle, self.clock)


def fetched(file):
    try:
        return Path(file).read_bytes()
    except FileNotFoundError:
        raise Refusal('missing') from None


# The words that begin a line, the method that answers it, and what reads each further word.
LINES = (
    (('guest', 'flat'), Session.guest_flat, (name_of, within(1, 131072))),
    (('guest', 'create'), Session.guest_create, (name_of, file_of)),
    (('guest', 'load'), Session.guest_load, (name_of, number_of, file_of)),
    (('guest', 'poke'), Session.guest_poke, (name_of, number_of, hex_of)),
    (('guest', 'kick'), Session.guest_kick, (name_of,)),
    (('guest', 'regs'), Session.guest_regs, (name_of, number_of)),
    (('guest', 'mem'), Session.guest_mem, (name_of, number_of, within(1, 4096))),
    (('guest', 'digest'), Session.guest_digest, (name_of,)),
    (('guest', 'audit'), Session.guest_audit, (name_of,)),
    (('guest', 'list'), Session.guest_list, ()),
    (('vserial', 'list'), Session.vserial_list, ()),
    (('vserial', 'input'), Session.vserial_input, (device_of, hex_of)),
    (('vserial', 'dump'), Session.vserial_dump, (device_of,)),
    (('clock',), Session.clock_to, (number_of,)),
    (('tick',), Session.tick_to, (number_of,)),
    (('run',), Session.run, (within(1, 100000),)),
)


def read_line(words):
    for head, method, readers in LINES:
        if tuple(words[:len(head)]) == head:
            fields = words[len(head):]
            if len(fields) != len(readers):
                break
            return method, [read(field) for read, field in zip(readers, fields)]
    raise Malformed(' '.join(words)[:60])


def read_script(text):
    """All lines are read before the first one is run."""
    lines = [line.split() for line in text.replace('\r\n', '\n').split('\n')]
    return [read_line(words) for words in lines if words and not words[0].startswith('#')]


def run_script(commands, watch):
    session = Session(watch)
    for method, fields in commands:
        try:
            print(method(session, *fields))
        except Refusal as why:
            print('refused %s' % why)


def main():
    words = sys.argv[1:]
    if words == ['--table']:
        check_table()
        return 0
    if words not in ([], ['--trace'], ['--steps']):
        print(__doc__, file=sys.stderr)
        return 2
    counts = {}

    def watch(h, before, name):
        if words == ['--trace']:
            print('%016x %08x %s -> %016x' % (before, h.word, name, h.pc), file=sys.stderr)
        elif words == ['--steps']:
            counts[name] = counts.get(name, 0) + 1

    try:
        commands = read_script(sys.stdin.read())
    except Malformed as what:
        print('reference.py: not a line that it knows: %s' % what, file=sys.stderr)
        return 3
    run_script(commands, watch)
    for name in sorted(counts):
        print('%8d %s' % (counts[name], name), file=sys.stderr)
    return 0


if __name__ == '__main__':
    sys.exit(main())
