"""The devices of a guest, each an automaton: a 16550 UART, a RISC-V PLIC 1.0 and a finisher.

A device has load(offset, width) and store(offset, width, value), which raise Refused where it doesn't take
the access, and reset(). Nothing here knows of addresses, instructions or scripts.
"""

from collections import deque

QUEUE = 4096            # bytes of input that a UART holds before its receiver
KEPT = 65536            # bytes of its output that are kept
SOURCES = range(1, 64)  # of the PLIC
TRIGGERS = (1, 4, 8, 14)


class Refused(Exception):
    """The device doesn't take an access of this kind; nothing has changed."""


def only_words(offset, width):
    if width != 4 or offset % 4 != 0:
        raise Refused


class Uart:
    def __init__(self, shift):
        self.shift = shift
        self.kept = deque()
        self.lost = 0
        self.reset()

    def reset(self):
        """What was sent stays; what came in is gone."""
        self.dll = self.dlm = self.ier = self.lcr = self.mcr = self.scratch = 0
        self.fifos_on = False
        self.trigger = 1
        self.received = []          # the FIFO, or the one byte that is held where FIFOs are off
        self.overrun = False
        self.sent = False           # the interrupt of an empty transmitter is pending
        self.changed = 0            # MSR bits 3:0
        self.queue = deque()

    # what is outside

    def free(self):
        return QUEUE - len(self.queue)

    def input(self, data):
        self.queue.extend(data)
        self.move()

    def take_kept(self):
        """The output that is kept, and how many bytes before it were lost; neither is kept any longer."""
        data, lost = bytes(self.kept), self.lost
        self.kept.clear()
        self.lost = 0
        return data, lost

    def move(self):
        while not self.loops() and self.queue and len(self.received) < self.room():
            self.received.append(self.queue.popleft())

    # its state

    def loops(self):
        return self.mcr >> 4 & 1

    def divisor(self):
        return self.lcr >> 7 & 1

    def room(self):
        return 16 if self.fifos_on else 1

    def inputs(self):
        """MSR bits 7:4: DCD, RI, DSR and CTS, in loop OUT2, OUT1, DTR and RTS."""
        if not self.loops():
            return 0b1011
        out2, out1, rts, dtr = (self.mcr >> bit & 1 for bit in (3, 2, 1, 0))
        return out2 << 3 | out1 << 2 | dtr << 1 | rts

    def cause(self):
        """The first that holds of those which IIR shows, the most urgent first; 1 is none."""
        count = len(self.received)
        if self.ier & 4 and self.overrun:
            return 0x06
        if self.ier & 1 and count and (not self.fifos_on or count >= self.trigger):
            return 0x04
        if self.ier & 1 and count:
            return 0x0C
        if self.ier & 2 and self.sent:
            return 0x02
        if self.ier & 8 and self.changed:
            return 0x00
        return 0x01

    def line(self):
        return self.cause() != 0x01

    # accesses

    def register(self, offset, width):
        """The register, or None where there is none."""
        if width != 1:
            raise Refused
        number = offset >> self.shift
        return number if number << self.shift == offset and number <= 7 else None

    def load(self, offset, width):
        number = self.register(offset, width)
        value = self.read(number) if number is not None else 0
        self.move()
        return value

    def store(self, offset, width, value):
        number = self.register(offset, width)
        if number is not None:
            self.write(number, value & 0xFF)
        self.move()

    def read(self, number):
        if number == 0:
            if self.divisor():
                return self.dll
            return self.received.pop(0) if self.received else 0
        if number == 1:
            return self.dlm if self.divisor() else self.ier
        if number == 2:
            cause = self.cause()
            if cause == 0x02:
                self.sent = False
            return cause | (0xC0 if self.fifos_on else 0)
        if number == 5:
            value = 0x60 | (2 if self.overrun else 0) | (1 if self.received else 0)
            self.overrun = False
            return value
        if number == 6:
            value = self.inputs() << 4 | self.changed
            self.changed = 0
            return value
        return {3: self.lcr, 4: self.mcr, 7: self.scratch}[number]

    def write(self, number, value):
        if number == 0:
            if self.divisor():
                self.dll = value
            else:
                self.send(value)
        elif number == 1:
            if self.divisor():
                self.dlm = value
            else:
                if value & ~self.ier & 2:
                    self.sent = True
                self.ier = value & 0x0F
        elif number == 2:
            self.control_fifos(value)
        elif number == 3:
            self.lcr = value
        elif number == 4:
            self.control_modem(value & 0x1F)
        elif number == 7:
            self.scratch = value        # 5 and 6 can't be written

    def send(self, byte):
        if self.loops():
            if len(self.received) < self.room():
                self.received.append(byte)
            else:
                self.overrun = True
                if not self.fifos_on:
                    self.received = [byte]
        else:
            self.kept.append(byte)
            if len(self.kept) > KEPT:
                self.kept.popleft()
                self.lost += 1
        self.sent = True

    def control_fifos(self, value):
        turned = bool(value & 1) != self.fifos_on
        self.fifos_on = bool(value & 1)
        if turned or self.fifos_on and value & 2:
            self.received = []
        if self.fifos_on:
            self.trigger = TRIGGERS[value >> 6]

    def control_modem(self, value):
        before = self.inputs()
        self.mcr = value
        after = self.inputs()
        turned = before ^ after
        if turned & 1:                  # CTS
            self.changed |= 1
        if turned & 2:                  # DSR
            self.changed |= 2
        if before & 4 and not after & 4:        # RI, its end alone
            self.changed |= 4
        if turned & 8:                  # DCD
            self.changed |= 8


class Plic:
    def __init__(self, contexts):
        self.contexts = contexts
        self.reset()

    def reset(self):
        self.priority = [0] * 64
        self.pending = set()
        self.served = set()             # claimed, and not completed yet
        self.enabled = [set() for _ in range(self.contexts)]
        self.threshold = [0] * self.contexts

    def gateway(self, sources):
        """The sources whose lines are up: each becomes pending, but where it is in service."""
        self.pending |= set(sources) - self.served

    def line(self, context):
        return any(self.priority[n] > self.threshold[context]
                   for n in self.pending & self.enabled[context])

    def claim(self, context):
        least = [n for n in sorted(self.pending & self.enabled[context]) if self.priority[n] > 0]
        if not least:
            return 0
        number = max(least, key=lambda n: self.priority[n])     # of equals the first, so the least
        self.pending.remove(number)
        self.served.add(number)
        return number

    def complete(self, context, number):
        if number in self.enabled[context]:
            self.served.discard(number)

    def place(self, offset):
        """The register's kind, with its context or its number, and its first source."""
        if offset % 4 == 0 and offset // 4 in SOURCES:
            return 'priority', offset // 4, 0
        if offset in (0x1000, 0x1004):
            return 'pending', 0, 8 * (offset - 0x1000)
        for context in range(self.contexts):
            if offset - (0x2000 + 0x80 * context) in (0, 4):
                return 'enabled', context, 8 * (offset - (0x2000 + 0x80 * context))
            if offset == 0x200000 + 0x1000 * context:
                return 'threshold', context, 0
            if offset == 0x200004 + 0x1000 * context:
                return 'claim', context, 0
        return 'nothing', 0, 0

    def load(self, offset, width):
        only_words(offset, width)
        kind, number, first = self.place(offset)
        if kind == 'priority':
            return self.priority[number]
        if kind == 'pending':
            return word_of(self.pending, first)
        if kind == 'enabled':
            return word_of(self.enabled[number], first)
        if kind == 'threshold':
            return self.threshold[number]
        if kind == 'claim':
            return self.claim(number)
        return 0

    def store(self, offset, width, value):
        only_words(offset, width)
        kind, number, first = self.place(offset)
        if kind == 'priority':
            self.priority[number] = value & 7
        elif kind == 'enabled':
            others = {n for n in self.enabled[number] if not first <= n < first + 32}
            self.enabled[number] = others | {n for n in SOURCES if 0 <= n - first < 32
                                             and value >> (n - first) & 1}
        elif kind == 'threshold':
            self.threshold[number] = value & 7
        elif kind == 'claim':
            self.complete(number, value)


def word_of(numbers, first):
    return sum(1 << n - first for n in numbers if first <= n < first + 32)


class Finisher:
    def __init__(self):
        self.reset()

    def reset(self):
        self.outcome = None             # how the guest ends, or 'reboot'

    def load(self, offset, width):
        only_words(offset, width)
        return 0

    def store(self, offset, width, value):
        only_words(offset, width)
        if offset != 0:
            return
        kind = value & 0xFFFF
        if kind == 0x5555:
            self.outcome = 'halted pass'
        elif kind == 0x3333:
            self.outcome = 'halted fail %d' % (value >> 16 & 0xFFFF)
        elif kind == 0x7777:
            self.outcome = 'reboot'
