"""Reads a flattened tree, as the Devicetree Specification v0.4 lays it out, and what it says of a guest.

It takes the tree to be well made and to break no rule of a guest: what is refused is no matter of the rows.
"""

import struct

from space import Region

BEGIN, END, PROPERTY, NOTHING, LAST = 1, 2, 3, 4, 9
DEVICES = {'ns16550a': 'uart', 'ns16550': 'uart', 'sifive,plic-1.0.0': 'plic', 'riscv,plic0': 'plic',
           'sifive,test0': 'finisher', 'sifive,test1': 'finisher'}
PRIORITY = 3            # of a VCPU whose node doesn't say it


class Node:
    def __init__(self, name):
        self.name = name
        self.properties = {}
        self.children = []

    def child(self, name):
        return next(node for node in self.children if node.name == name)

    def text(self, name):
        return self.properties[name].split(b'\0')[0].decode()

    def number(self, name, default=None):
        """One cell or two, the high one first; of more the first."""
        value = self.properties.get(name)
        if value is None:
            return default
        return int.from_bytes(value[:4] if len(value) > 8 else value, 'big')


def read(blob):
    """The root of the tree."""
    magic, _, structure, strings = struct.unpack('>4I', blob[:16])
    assert magic == 0xD00DFEED

    def word(at):
        return int.from_bytes(blob[at:at + 4], 'big')

    def text(at):
        return blob[at:blob.index(0, at)].decode()

    def padded(at):
        return at + 3 & ~3

    at = structure
    path = [Node(None)]                 # above the root
    while word(at) != LAST:
        token = word(at)
        at += 4
        if token == BEGIN:
            node = Node(text(at))
            at = padded(at + len(node.name) + 1)
            path[-1].children.append(node)
            path.append(node)
        elif token == END:
            path.pop()
        elif token == PROPERTY:
            length, name = word(at), text(strings + word(at + 4))
            path[-1].properties[name] = blob[at + 8:at + 8 + length]
            at = padded(at + 8 + length)
        else:
            assert token == NOTHING
    return path[0].children[0]


def kind_of(node):
    manifest = node.text('manifest_type')
    if manifest == 'alias':
        return 'alias'
    if manifest == 'real':
        return {'alloced_ram': 'ram', 'alloced_rom': 'rom'}[node.text('device_type')]
    assert manifest == 'virtual'
    words = node.properties.get('compatible', b'').decode().split('\0')
    return next((DEVICES[word] for word in words if word in DEVICES), None)


def region_of(node):
    """The region, or None where the node is one that is skipped."""
    if 'manifest_type' not in node.properties:
        return None
    kind = kind_of(node)
    if kind is None:
        return None
    region = Region(node.name, kind, node.number('guest_physical_addr'), node.number('physical_size'))
    region.target = node.number('alias_physical_addr')
    region.shift = node.number('reg-shift', 0)
    region.source = node.number('interrupts', 0) if kind == 'uart' else 0
    return region


def plan_of(blob):
    """The regions in order, and of each VCPU where it starts and its priority."""
    root = read(blob)
    vcpus = [(node.number('start_pc'), node.number('priority', PRIORITY))
             for node in root.child('vcpus').children]
    regions = [region_of(node) for node in root.child('aspace').children]
    return [region for region in regions if region is not None], vcpus
