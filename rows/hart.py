"""The hart of a guest and its instructions, written from the rules alone, apart from the proved code.

Nothing here is fast, and each rule is written once, next to its row. What memory and devices are is
space.py's to say, and what firmware answers calls.py's.
"""

from functools import lru_cache

from devices import Refused

M64 = (1 << 64) - 1
M32 = (1 << 32) - 1
PAGE = 4096
STEPS_PER_TURN = 1000


def low(value, bits):
    """The low bits, as a number that is at least 0."""
    return value & ((1 << bits) - 1)


def signed(value, bits=64):
    """The low bits, read as a signed number."""
    value = low(value, bits)
    return value - (1 << bits) if value >> (bits - 1) else value


def sext(value, bits):
    """The low bits with their sign carried up to 64 bits."""
    return low(signed(value, bits), 64)


def field(word, high, least):
    return low(word >> least, high - least + 1)


# --- immediates and operands ---------------------------------------------------------------------------

def imm_i(w):
    return sext(field(w, 31, 20), 12)


def imm_s(w):
    return sext(field(w, 31, 25) << 5 | field(w, 11, 7), 12)


def imm_b(w):
    return sext(field(w, 31, 31) << 12 | field(w, 7, 7) << 11 | field(w, 30, 25) << 5
                | field(w, 11, 8) << 1, 13)


def imm_u(w):
    return low(sext(field(w, 31, 12), 20) * 4096, 64)


def imm_j(w):
    return sext(field(w, 31, 31) << 20 | field(w, 19, 12) << 12 | field(w, 20, 20) << 11
                | field(w, 30, 21) << 1, 21)


def rd(w):
    return field(w, 11, 7)


def rs1(w):
    return field(w, 19, 15)


def rs2(w):
    return field(w, 24, 20)


# --- the hart --------------------------------------------------------------------------------------------

class Trap(Exception):
    """An exception of the guest; the step that raises it has changed nothing before."""

    def __init__(self, cause, tval):
        super().__init__(cause, tval)
        self.cause = cause
        self.tval = tval


def number_at(place, width):
    region, offset = place
    return int.from_bytes(region.data[offset:offset + width], 'little')


def put_at(place, width, value):
    region, offset = place
    region.data[offset:offset + width] = low(value, 8 * width).to_bytes(width, 'little')


class Hart:
    def __init__(self, space, number, start, priority):
        self.space = space
        self.number = number
        self.start = start
        self.priority = priority
        self.last_turn = 0          # its number; a reset doesn't make it forgotten
        self.firmware = None        # of the guest
        self.reset()

    def reset(self):
        self.x = [0] * 32
        self.pc = self.start
        self.next = self.start      # where the pc goes when this step retires
        self.supervisor = True
        self.state = 'stopped'
        self.time = 0
        self.reservation = None     # (region, offset in it, width), or None
        self.word = 0
        # The CSRs hold exactly the bits that are kept.
        self.sstatus = self.sie = self.stvec = self.scounteren = self.senvcfg = 0
        self.sscratch = self.sepc = self.scause = self.stval = self.satp = 0
        self.ssip = 0
        self.compare = M64

    # registers

    def get(self, number):
        return self.x[number]

    def put(self, number, value):
        if number != 0:
            self.x[number] = low(value, 64)

    # memory. fault is the access fault of a kind of access: 1 of a fetch, 5 of a load, 7 of a store

    def translate(self, address, fault):
        """The guest physical address. A and D are never set: a leaf without them is a page fault."""
        if self.satp >> 60 == 0:
            return address
        page_fault = Trap({1: 12, 5: 13, 7: 15}[fault], address)
        if address >> 38 not in (0, (1 << 26) - 1):
            raise page_fault
        table = low(self.satp, 44) * PAGE
        for level in (2, 1, 0):
            place = self.space.memory(table + 8 * low(address >> 12 + 9 * level, 9), 8)
            if place is None:
                raise Trap(fault, address)      # also where a device is: it isn't asked
            entry = number_at(place, 8)
            v, r, w, x, u, _, a, d = (entry >> bit & 1 for bit in range(8))
            page = low(entry >> 10, 44)
            if not v or entry >> 54 or w and not r:
                raise page_fault
            if r or x:
                break
            if a or d or u or level == 0:
                raise page_fault
            table = page * PAGE
        may = {1: x, 5: r or x and self.flag(19), 7: w and d}[fault]
        theirs = u if not self.supervisor else not u or fault != 1 and self.flag(18)
        if not may or not theirs or not a or low(page, 9 * level):
            raise page_fault
        return page * PAGE + low(address, 12 + 9 * level)

    def place(self, address, width, fault):
        """The region of memory and the offset in it."""
        return self.memory(self.translate(address, fault), address, width, fault)

    def memory(self, physical, address, width, fault):
        place = self.space.memory(physical, width)
        if place is None or fault == 7 and place[0].kind == 'rom':
            raise Trap(fault, address)
        return place

    def read(self, address, width, fault):
        """A fetch, or an access of LR, SC or an AMO: of memory alone."""
        return number_at(self.place(address, width, fault), width)

    def write(self, address, width, value):
        put_at(self.place(address, width, 7), width, value)

    def load(self, address, width):
        """A plain load, which a device answers where one is."""
        physical = self.translate(address, 5)
        device = self.space.device(physical, width)
        if device is None:
            return number_at(self.memory(physical, address, width, 5), width)
        try:
            return self.space.device_load(device, width)
        except Refused:
            raise Trap(5, address) from None

    def store(self, address, width, value):
        physical = self.translate(address, 7)
        device = self.space.device(physical, width)
        if device is None:
            put_at(self.memory(physical, address, width, 7), width, value)
            return
        try:
            self.space.device_store(device, width, low(value, 8 * width))
        except Refused:
            raise Trap(7, address) from None

    def aligned(self, address, width, fault):
        if address % width != 0:
            raise Trap(fault, address)

    # interrupts and traps

    def sip(self):
        timer = self.time >= self.compare
        external = self.space.external(self.number)
        return (2 if self.ssip else 0) | (1 << 5 if timer else 0) | (1 << 9 if external else 0)

    def flag(self, bit):
        return self.sstatus >> bit & 1

    def set_flag(self, bit, value):
        self.sstatus = self.sstatus & ~(1 << bit) | value << bit

    def enter(self, cause, tval):
        self.sepc = self.pc & ~3
        self.scause = cause
        self.stval = tval
        self.set_flag(8, 1 if self.supervisor else 0)
        self.set_flag(5, self.flag(1))
        self.set_flag(1, 0)
        self.supervisor = True
        self.pc = self.stvec & ~3
        if cause >> 63 and self.stvec & 3 == 1:
            self.pc = low(self.pc + 4 * low(cause, 63), 64)

    def refuse(self):
        raise Trap(2, self.word)

    def is_ready(self, time):
        self.time = time
        return self.state == 'started' or self.state != 'stopped' and self.sip() & self.sie != 0

    # one lone step; answers the row's name

    def step(self):
        pending = self.sip() & self.sie
        if pending and (not self.supervisor or self.flag(1)):
            number = next(n for n in (9, 1, 5) if pending >> n & 1)
            self.enter((1 << 63) + number, 0)
            return 'interrupt'
        name = 'fetch'
        try:
            self.word = self.read(self.pc, 4, 1)
            row = decode(self.word)
            if row is None:
                name = 'illegal'
                self.refuse()
            name = row.name
            self.next = low(self.pc + 4, 64)
            row.effect(self, self.word)
            self.pc = self.next
        except Trap as trap:
            self.enter(trap.cause, trap.tval)
        return name

    def turn(self, time, watch):
        self.time = time
        self.reservation = None
        self.state = 'started'
        for _ in range(STEPS_PER_TURN):
            before = self.pc
            name = self.step()
            watch(self, before, name)
            if self.state != 'started' or self.space.outcome is not None:
                break
        self.reservation = None


# --- CSRs ------------------------------------------------------------------------------------------------

KEPT_SSTATUS = 1 << 1 | 1 << 5 | 1 << 8 | 1 << 18 | 1 << 19
KEPT_SIE = 1 << 1 | 1 << 5 | 1 << 9
UXL = 2 << 32


def csr_read(h, number):
    if number == 0x100:
        return h.sstatus | UXL
    if number == 0x144:
        return h.sip()
    if number == 0xC01:
        return h.time
    name = {0x104: 'sie', 0x105: 'stvec', 0x106: 'scounteren', 0x10A: 'senvcfg', 0x140: 'sscratch',
            0x141: 'sepc', 0x142: 'scause', 0x143: 'stval', 0x180: 'satp'}.get(number)
    if name is None:
        h.refuse()
    return getattr(h, name)


def csr_write(h, number, v):
    if number == 0x100:
        h.sstatus = v & KEPT_SSTATUS
    elif number == 0x104:
        h.sie = v & KEPT_SIE
    elif number == 0x105:
        h.stvec = v & ~3 | (1 if v & 3 == 1 else 0)
    elif number == 0x106:
        h.scounteren = v & 2
    elif number == 0x10A:
        h.senvcfg = v & 1
    elif number == 0x140:
        h.sscratch = v
    elif number == 0x141:
        h.sepc = v & ~3
    elif number == 0x142:
        h.scause = v
    elif number == 0x143:
        h.stval = v
    elif number == 0x144:
        h.ssip = v >> 1 & 1
    elif number == 0x180:
        if v >> 60 in (0, 8):       # any other MODE: the whole write has no effect
            h.satp = v >> 60 << 60 | low(v, 44)
    else:
        h.refuse()                  # 0xC01


def csr_row(kind, immediate):
    def effect(h, w):
        number = field(w, 31, 20)
        if not h.supervisor and not (number == 0xC01 and h.scounteren >> 1 & 1):
            h.refuse()
        old = csr_read(h, number)
        operand = rs1(w) if immediate else h.get(rs1(w))
        if kind == 'write':
            csr_write(h, number, operand)
        elif rs1(w) != 0:
            csr_write(h, number, old | operand if kind == 'set' else old & low(~operand, 64))
        h.put(rd(w), old)
    return effect


# --- effects of the rows ---------------------------------------------------------------------------------

def jump(h, target):
    if target % 4 != 0:
        raise Trap(0, target)
    h.next = target


def lui(h, w):
    h.put(rd(w), imm_u(w))


def auipc(h, w):
    h.put(rd(w), h.pc + imm_u(w))


def jal(h, w):
    jump(h, low(h.pc + imm_j(w), 64))
    h.put(rd(w), h.pc + 4)


def jalr(h, w):
    jump(h, low(h.get(rs1(w)) + imm_i(w), 64) & ~1)
    h.put(rd(w), h.pc + 4)


def branch(holds):
    def effect(h, w):
        if holds(h.get(rs1(w)), h.get(rs2(w))):
            jump(h, low(h.pc + imm_b(w), 64))
    return effect


def load(width, carry_sign):
    def effect(h, w):
        address = low(h.get(rs1(w)) + imm_i(w), 64)
        h.aligned(address, width, 4)
        value = h.load(address, width)
        h.put(rd(w), sext(value, 8 * width) if carry_sign else value)
    return effect


def store(width):
    def effect(h, w):
        address = low(h.get(rs1(w)) + imm_s(w), 64)
        h.aligned(address, width, 6)
        h.store(address, width, h.get(rs2(w)))
    return effect


def with_immediate(result):
    return lambda h, w: h.put(rd(w), result(h.get(rs1(w)), imm_i(w)))


def with_shift(bits, result):
    """The shift is the number in bits 25:20 (6 bits), or 24:20 (5 bits)."""
    return lambda h, w: h.put(rd(w), result(h.get(rs1(w)), low(w >> 20, bits)))


def with_register(result):
    return lambda h, w: h.put(rd(w), result(h.get(rs1(w)), h.get(rs2(w))))


def divide(a, b, bits):
    """Signed, towards zero."""
    a, b = signed(a, bits), signed(b, bits)
    if b == 0:
        return -1
    quotient = abs(a) // abs(b)
    return -quotient if (a < 0) != (b < 0) else quotient


def remain(a, b, bits):
    a, b = signed(a, bits), signed(b, bits)
    if b == 0:
        return a
    rest = abs(a) % abs(b)
    return -rest if a < 0 else rest


def divide_u(a, b, bits):
    a, b = low(a, bits), low(b, bits)
    return low(-1, bits) if b == 0 else a // b


def remain_u(a, b, bits):
    a, b = low(a, bits), low(b, bits)
    return a if b == 0 else a % b


def fence(h, w):
    pass


def ecall(h, w):
    if not h.supervisor:
        raise Trap(8, 0)
    h.firmware.call(h)


def ebreak(h, w):
    raise Trap(3, h.pc)


def sret(h, w):
    if not h.supervisor:
        h.refuse()
    h.next = h.sepc
    h.supervisor = h.flag(8) == 1
    h.set_flag(1, h.flag(5))
    h.set_flag(5, 1)
    h.set_flag(8, 0)


def wfi(h, w):
    if not h.supervisor:
        h.refuse()
    if h.sip() & h.sie == 0:
        h.state = 'waiting'


def sfence(h, w):
    if not h.supervisor:
        h.refuse()


def load_reserved(width):
    def effect(h, w):
        address = h.get(rs1(w))
        h.aligned(address, width, 4)
        value = h.read(address, width, 5)
        h.reservation = (*h.place(address, width, 5), width)
        h.put(rd(w), sext(value, 8 * width))
    return effect


def store_conditional(width):
    def effect(h, w):
        address = h.get(rs1(w))
        h.aligned(address, width, 6)
        success = h.reservation == (*h.place(address, width, 7), width)     # the place also where it fails
        if success:
            h.write(address, width, h.get(rs2(w)))
        h.reservation = None
        h.put(rd(w), 0 if success else 1)
    return effect


def atomic(width, result):
    """The result gets the old value and rs2, both as numbers of the row's width that are at least 0."""
    def effect(h, w):
        address = h.get(rs1(w))
        h.aligned(address, width, 6)
        old = h.read(address, width, 7)
        h.write(address, width, result(old, low(h.get(rs2(w)), 8 * width)))
        h.put(rd(w), sext(old, 8 * width))
    return effect


# --- the table -------------------------------------------------------------------------------------------

class Row:
    def __init__(self, name, mask, match, effect):
        self.name = name
        self.mask = mask
        self.match = match
        self.effect = effect


TABLE = []


def add(name, effect, word=None, op=None, f3=None, f5=None, f6=None, f7=None, rs2=None, rd=None):
    mask = match = 0
    if word is not None:
        mask, match = M32, word
    for value, bits, at in ((op, 7, 0), (f3, 3, 12), (f5, 5, 27), (f6, 6, 26), (f7, 7, 25),
                            (rs2, 5, 20), (rd, 5, 7)):
        if value is not None:
            mask |= low(-1, bits) << at
            match |= value << at
    TABLE.append(Row(name, mask, match, effect))


def fill():
    add('LUI', lui, op=0x37)
    add('AUIPC', auipc, op=0x17)
    add('JAL', jal, op=0x6F)
    add('JALR', jalr, op=0x67, f3=0)

    add('BEQ', branch(lambda a, b: a == b), op=0x63, f3=0)
    add('BNE', branch(lambda a, b: a != b), op=0x63, f3=1)
    add('BLT', branch(lambda a, b: signed(a) < signed(b)), op=0x63, f3=4)
    add('BGE', branch(lambda a, b: signed(a) >= signed(b)), op=0x63, f3=5)
    add('BLTU', branch(lambda a, b: a < b), op=0x63, f3=6)
    add('BGEU', branch(lambda a, b: a >= b), op=0x63, f3=7)

    for f3, name, width, carry_sign in ((0, 'LB', 1, True), (1, 'LH', 2, True), (2, 'LW', 4, True),
                                        (3, 'LD', 8, True), (4, 'LBU', 1, False), (5, 'LHU', 2, False),
                                        (6, 'LWU', 4, False)):
        add(name, load(width, carry_sign), op=0x03, f3=f3)
    for f3, name, width in ((0, 'SB', 1), (1, 'SH', 2), (2, 'SW', 4), (3, 'SD', 8)):
        add(name, store(width), op=0x23, f3=f3)

    add('ADDI', with_immediate(lambda a, b: a + b), op=0x13, f3=0)
    add('SLTI', with_immediate(lambda a, b: int(signed(a) < signed(b))), op=0x13, f3=2)
    add('SLTIU', with_immediate(lambda a, b: int(a < b)), op=0x13, f3=3)
    add('XORI', with_immediate(lambda a, b: a ^ b), op=0x13, f3=4)
    add('ORI', with_immediate(lambda a, b: a | b), op=0x13, f3=6)
    add('ANDI', with_immediate(lambda a, b: a & b), op=0x13, f3=7)
    add('SLLI', with_shift(6, lambda a, n: a << n), op=0x13, f3=1, f6=0)
    add('SRLI', with_shift(6, lambda a, n: a >> n), op=0x13, f3=5, f6=0)
    add('SRAI', with_shift(6, lambda a, n: signed(a) >> n), op=0x13, f3=5, f6=0x10)

    add('ADDIW', with_immediate(lambda a, b: sext(a + b, 32)), op=0x1B, f3=0)
    add('SLLIW', with_shift(5, lambda a, n: sext(a << n, 32)), op=0x1B, f3=1, f7=0)
    add('SRLIW', with_shift(5, lambda a, n: sext(low(a, 32) >> n, 32)), op=0x1B, f3=5, f7=0)
    add('SRAIW', with_shift(5, lambda a, n: signed(a, 32) >> n), op=0x1B, f3=5, f7=0x20)

    add('ADD', with_register(lambda a, b: a + b), op=0x33, f7=0, f3=0)
    add('SLL', with_register(lambda a, b: a << low(b, 6)), op=0x33, f7=0, f3=1)
    add('SLT', with_register(lambda a, b: int(signed(a) < signed(b))), op=0x33, f7=0, f3=2)
    add('SLTU', with_register(lambda a, b: int(a < b)), op=0x33, f7=0, f3=3)
    add('XOR', with_register(lambda a, b: a ^ b), op=0x33, f7=0, f3=4)
    add('SRL', with_register(lambda a, b: a >> low(b, 6)), op=0x33, f7=0, f3=5)
    add('OR', with_register(lambda a, b: a | b), op=0x33, f7=0, f3=6)
    add('AND', with_register(lambda a, b: a & b), op=0x33, f7=0, f3=7)
    add('SUB', with_register(lambda a, b: a - b), op=0x33, f7=0x20, f3=0)
    add('SRA', with_register(lambda a, b: signed(a) >> low(b, 6)), op=0x33, f7=0x20, f3=5)

    add('MUL', with_register(lambda a, b: a * b), op=0x33, f7=1, f3=0)
    add('MULH', with_register(lambda a, b: signed(a) * signed(b) >> 64), op=0x33, f7=1, f3=1)
    add('MULHSU', with_register(lambda a, b: signed(a) * b >> 64), op=0x33, f7=1, f3=2)
    add('MULHU', with_register(lambda a, b: a * b >> 64), op=0x33, f7=1, f3=3)
    add('DIV', with_register(lambda a, b: divide(a, b, 64)), op=0x33, f7=1, f3=4)
    add('DIVU', with_register(lambda a, b: divide_u(a, b, 64)), op=0x33, f7=1, f3=5)
    add('REM', with_register(lambda a, b: remain(a, b, 64)), op=0x33, f7=1, f3=6)
    add('REMU', with_register(lambda a, b: remain_u(a, b, 64)), op=0x33, f7=1, f3=7)

    add('ADDW', with_register(lambda a, b: sext(a + b, 32)), op=0x3B, f7=0, f3=0)
    add('SLLW', with_register(lambda a, b: sext(a << low(b, 5), 32)), op=0x3B, f7=0, f3=1)
    add('SRLW', with_register(lambda a, b: sext(low(a, 32) >> low(b, 5), 32)), op=0x3B, f7=0, f3=5)
    add('SUBW', with_register(lambda a, b: sext(a - b, 32)), op=0x3B, f7=0x20, f3=0)
    add('SRAW', with_register(lambda a, b: signed(a, 32) >> low(b, 5)), op=0x3B, f7=0x20, f3=5)

    add('MULW', with_register(lambda a, b: sext(a * b, 32)), op=0x3B, f7=1, f3=0)
    add('DIVW', with_register(lambda a, b: sext(divide(a, b, 32), 32)), op=0x3B, f7=1, f3=4)
    add('DIVUW', with_register(lambda a, b: sext(divide_u(a, b, 32), 32)), op=0x3B, f7=1, f3=5)
    add('REMW', with_register(lambda a, b: sext(remain(a, b, 32), 32)), op=0x3B, f7=1, f3=6)
    add('REMUW', with_register(lambda a, b: sext(remain_u(a, b, 32), 32)), op=0x3B, f7=1, f3=7)

    add('FENCE', fence, op=0x0F, f3=0)
    add('FENCE.I', fence, op=0x0F, f3=1)
    add('ECALL', ecall, word=0x00000073)
    add('EBREAK', ebreak, word=0x00100073)
    add('SRET', sret, word=0x10200073)
    add('WFI', wfi, word=0x10500073)
    add('SFENCE.VMA', sfence, op=0x73, f3=0, f7=0x09, rd=0)

    for f3, name, kind, immediate in ((1, 'CSRRW', 'write', False), (2, 'CSRRS', 'set', False),
                                      (3, 'CSRRC', 'clear', False), (5, 'CSRRWI', 'write', True),
                                      (6, 'CSRRSI', 'set', True), (7, 'CSRRCI', 'clear', True)):
        add(name, csr_row(kind, immediate), op=0x73, f3=f3)

    for f3, width, end in ((2, 4, '.W'), (3, 8, '.D')):
        bits = 8 * width

        def atomics(f5, name, result, f3=f3, width=width, end=end):
            add(name + end, atomic(width, result), op=0x2F, f3=f3, f5=f5)

        def least(a, b, bits=bits):
            return a if signed(a, bits) <= signed(b, bits) else b

        def greatest(a, b, bits=bits):
            return a if signed(a, bits) >= signed(b, bits) else b

        add('LR' + end, load_reserved(width), op=0x2F, f3=f3, f5=0x02, rs2=0)
        add('SC' + end, store_conditional(width), op=0x2F, f3=f3, f5=0x03)
        atomics(0x01, 'AMOSWAP', lambda old, b: b)
        atomics(0x00, 'AMOADD', lambda old, b: old + b)
        atomics(0x04, 'AMOXOR', lambda old, b: old ^ b)
        atomics(0x0C, 'AMOAND', lambda old, b: old & b)
        atomics(0x08, 'AMOOR', lambda old, b: old | b)
        atomics(0x10, 'AMOMIN', least)
        atomics(0x14, 'AMOMAX', greatest)
        atomics(0x18, 'AMOMINU', min)
        atomics(0x1C, 'AMOMAXU', max)


fill()


@lru_cache(maxsize=4096)
def decode(word):
    for row in TABLE:
        if word & row.mask == row.match:
            return row
    return None


def check_table():
    assert len(TABLE) == 97, len(TABLE)
    assert len({row.name for row in TABLE}) == 97
    for i, a in enumerate(TABLE):
        assert a.match & ~a.mask == 0, a.name
        for b in TABLE[:i]:
            # Some word matches both exactly where they agree on the bits that both fix.
            assert (a.match ^ b.match) & a.mask & b.mask != 0, (a.name, b.name)
    print('97 rows, no word matches two')
