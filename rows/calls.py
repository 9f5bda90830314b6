"""The calls of a guest to its firmware, as the SBI 1.0 has them and as far as the table goes.

A call is what CALLS has under its extension and its function. It gets the guest's firmware, the hart that
calls and the arguments, and answers the value. It raises Error where it fails, before it has changed
anything, and Gone where nothing is answered.
"""

from hart import M64, low

NOT_SUPPORTED, INVALID_PARAMETER, INVALID_ADDRESS, ALREADY_AVAILABLE = -2, -3, -5, -6
BASE, TIME, IPI, FENCE, HART, RESET = 0x10, 0x54494D45, 0x735049, 0x52464E43, 0x48534D, 0x53525354
EXTENSIONS = (BASE, TIME, IPI, FENCE, HART, RESET)
STATUS = {'started': 0, 'waiting': 0, 'stopped': 1, 'suspended': 4}


class Error(Exception):
    def __init__(self, number):
        super().__init__(number)
        self.number = number


class Gone(Exception):
    """The call doesn't return: a0 and a1 stay as they are."""


class Firmware:
    """What the harts of a guest have in common for their calls."""

    def __init__(self, space, harts):
        self.space = space
        self.harts = harts

    def hart(self, number):
        if number >= len(self.harts):
            raise Error(INVALID_PARAMETER)
        return self.harts[number]

    def named(self, mask, base):
        """The harts that a mask names; base + i is no sum of 64 bits, so that it never comes round to 0."""
        if base == M64:
            return self.harts
        return [self.hart(base + bit) for bit in range(64) if mask >> bit & 1]

    def call(self, caller):
        arguments = [caller.get(register) for register in range(10, 16)]
        function = CALLS.get((caller.get(17), caller.get(16)))
        try:
            if function is None:
                raise Error(NOT_SUPPORTED)
            error, value = 0, function(self, caller, *arguments)
        except Error as failed:
            error, value = failed.number, 0
        except Gone:
            return
        caller.put(10, error)
        caller.put(11, value)


def constant(value):
    return lambda firmware, caller, *arguments: value


def probe(firmware, caller, extension, *rest):
    return 1 if extension in EXTENSIONS else 0


def set_timer(firmware, caller, time, *rest):
    caller.compare = time
    return 0


def send_ipi(firmware, caller, mask, base, *rest):
    for hart in firmware.named(mask, base):
        hart.ssip = 1
    return 0


def remote_fence(firmware, caller, mask, base, *rest):
    """Nothing is cached, so that the mask alone is looked at."""
    firmware.named(mask, base)
    return 0


def hart_start(firmware, caller, number, address, opaque, *rest):
    hart = firmware.hart(number)
    if hart.state != 'stopped':
        raise Error(ALREADY_AVAILABLE)
    if address % 4 != 0 or firmware.space.memory(address, 4) is None:
        raise Error(INVALID_ADDRESS)
    hart.reset()
    hart.pc = address
    hart.put(10, number)
    hart.put(11, opaque)
    hart.state = 'started'
    return 0


def hart_stop(firmware, caller, *arguments):
    caller.state = 'stopped'
    raise Gone


def hart_status(firmware, caller, number, *rest):
    return STATUS[firmware.hart(number).state]


def hart_suspend(firmware, caller, kind, *rest):
    """The kinds that the standard reserves are invalid. Those of a platform, and the one that doesn't keep
    state, aren't supported."""
    kind = low(kind, 32)
    if 1 <= kind <= 0x0FFFFFFF or 0x80000001 <= kind <= 0x8FFFFFFF:
        raise Error(INVALID_PARAMETER)
    if kind != 0:
        raise Error(NOT_SUPPORTED)
    caller.state = 'suspended'
    return 0


def system_reset(firmware, caller, kind, reason, *rest):
    kind, reason = low(kind, 32), low(reason, 32)
    if reason > 1 or kind > 2:
        raise Error(INVALID_PARAMETER)
    firmware.space.outcome = 'halted shutdown' if kind == 0 else 'reboot'
    raise Gone


CALLS = {
    (BASE, 0): constant(0x01000000),
    (BASE, 1): constant(2),
    (BASE, 2): constant(0),
    (BASE, 3): probe,
    (BASE, 4): constant(0),
    (BASE, 5): constant(0),
    (BASE, 6): constant(0),
    (TIME, 0): set_timer,
    (IPI, 0): send_ipi,
    (FENCE, 0): remote_fence,
    (FENCE, 1): remote_fence,
    (FENCE, 2): remote_fence,
    (HART, 0): hart_start,
    (HART, 1): hart_stop,
    (HART, 2): hart_status,
    (HART, 3): hart_suspend,
    (RESET, 0): system_reset,
}
