"""What a guest's physical addresses lead to: memory, a device, or nothing; and the lines between devices."""

from devices import Finisher, Plic, Refused, Uart

PAGE = 4096


class Region:
    """A range of addresses. Its kind is ram, rom, alias, uart, plic or finisher."""

    def __init__(self, name, kind, base, size):
        self.name = name
        self.kind = kind
        self.base = base
        self.size = size
        self.target = None      # of an alias, where it leads
        self.shift = 0          # of a UART, and its number at the PLIC
        self.source = 0
        self.data = bytearray(size) if kind in ('ram', 'rom') else None
        self.device = None

    def has(self, physical, width):
        return self.base <= physical and physical + width <= self.base + self.size


class Space:
    def __init__(self, regions, vcpus):
        self.regions = regions
        for region in regions:
            if region.kind == 'uart':
                region.device = Uart(region.shift)
            elif region.kind == 'plic':
                region.device = Plic(vcpus)
            elif region.kind == 'finisher':
                region.device = Finisher()
        self.plic = next((region.device for region in regions if region.kind == 'plic'), None)
        self.uarts = [region for region in regions if region.kind == 'uart']
        self.outcome = None     # what the last store to a finisher has led to

    def region(self, physical, width):
        return next((region for region in self.regions if region.has(physical, width)), None)

    def memory(self, physical, width):
        """The region whose bytes these are and the offset in it, or None where there is no memory."""
        region = self.region(physical, width)
        if region is not None and region.kind == 'alias':
            physical = physical - region.base + region.target
            region = self.region(physical, width)
        if region is None or region.data is None:
            return None
        return region, physical - region.base

    def device(self, physical, width):
        """The region of a device and the offset in it, or None."""
        region = self.region(physical, width)
        if region is None or region.device is None:
            return None
        return region, physical - region.base

    # plain loads and stores of a device; they raise Refused

    def device_load(self, place, width):
        region, offset = place
        value = region.device.load(offset, width)
        self.settle()
        return value

    def device_store(self, place, width, value):
        region, offset = place
        region.device.store(offset, width, value)
        if region.kind == 'finisher':
            self.outcome = region.device.outcome
        self.settle()

    def settle(self):
        """The PLIC sees the lines of the UARTs, after each access and after each input."""
        if self.plic is not None:
            self.plic.gateway(region.source for region in self.uarts
                              if region.source and region.device.line())

    def external(self, vcpu):
        return self.plic is not None and self.plic.line(vcpu)

    def reset_devices(self):
        self.outcome = None
        for region in self.regions:
            if region.device is not None:
                region.device.reset()

    # counts

    def pages(self):
        """The pages of memory that the host's tables lead to."""
        return sum(region.size for region in self.regions if region.device is None) // PAGE

    def frames(self):
        """One for each page of RAM and ROM, and one for each table below the root."""
        def blocks(size):
            return len({block for region in self.regions if region.device is None
                        for block in range(region.base // size, (region.base + region.size - 1) // size + 1)})

        real = sum(region.size for region in self.regions if region.data is not None) // PAGE
        return real + blocks(1 << 30) + blocks(1 << 21)
