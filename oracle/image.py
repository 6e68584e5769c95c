"""Saved images: save, load, and where a bad image goes wrong (document 01, "Saved image")."""

import struct
from math import prod

from machine import LENT, Machine, has_shape, lent_refusal

SIZE = 48473
# Kind and body length of the seven records, in order.
RECORDS = ((1, 431), (2, 768), (3, 2048), (4, 32768), (5, 128), (6, 6144), (7, 6144))

NO_WAIT, STALL_WAIT, SEMAPHORE_WAIT = 0, 1, 2


# Writing.

def number(value, size):
    """A number in little-endian bytes."""
    return value.to_bytes(size, 'little')


def flat(part):
    """The numbers of nested lists by thread or bank, row, column."""
    while isinstance(part[0], list):
        part = [number for inner in part for number in inner]
    return part


def rows(part, size):
    """Numbers of at most 4 bytes, each cut to its size."""
    values = flat(part)
    data = bytearray(struct.pack(f'<{len(values)}I', *values))
    for width in range(4, size, -1):
        del data[width - 1::width]
    return bytes(data)


def wait_numbers(wait):
    """(kind, block, low field) of a wait; the low field is bits 0–14 or 0–9 of its word."""
    if wait is None:
        return NO_WAIT, 0, 0
    if wait[0] == 'stall':
        return STALL_WAIT, wait[1], wait[2]
    return SEMAPHORE_WAIT, wait[1], (wait[2] << 2) + wait[3]  # a sum also where a digest is of a condition out of range


def wait_bytes(wait):
    kind, block, low = wait_numbers(wait)
    return number(kind, 1) + number(block, 2) + number(low, 2)


def control_bytes(machine):
    """Body of kind 1."""
    return (rows(machine.settings, 2) + bytes(machine.mutexes) + rows(machine.semaphores, 1)
            + b''.join(wait_bytes(wait) for wait in machine.waits)
            + bytes(machine.owners) + bytes(machine.pointers))


def mark_bytes(marks):
    """Body of kind 5: row r at bit r mod 8 of byte r / 8."""
    packed = bytearray(128)
    for row, mark in enumerate(marks):
        if mark:
            packed[row >> 3] |= 1 << (row & 7)
    return bytes(packed)


def image_of(machine):
    """The image of a well formed machine."""
    bodies = (control_bytes(machine), rows(machine.gprs, 4), rows(machine.config, 4), rows(machine.dest, 2),
              mark_bytes(machine.marks), rows(machine.src_a, 3), rows(machine.src_b, 3))
    return b''.join(number(len(body), 4) + number(kind, 2) + body
                    for (kind, _), body in zip(RECORDS, bodies))


def save(machine, output):
    """Fills a lent bytearray from its start and leaves its rest: ('saved', 48473) or ('refused', 4, 10 or 8)."""
    refusal = lent_refusal(machine)
    if refusal is not None:
        return ('refused', refusal)
    if len(output) < SIZE:
        return ('refused', 8)
    output[:SIZE] = image_of(machine)
    return ('saved', SIZE)


# Reading.

class BadField(Exception):
    """The first field missing, cut or out of range; its argument is the field's offset."""


def unpacked(data, size):
    """Little-endian numbers of one size, at most 4 bytes."""
    count = len(data) // size
    wide = bytearray(4 * count)
    for place in range(size):
        wide[place::4] = data[place::size]
    return list(struct.unpack(f'<{count}I', wide))


def nested(values, shape):
    """Numbers in nested lists of a shape."""
    for columns in reversed(shape[1:]):
        values = [values[at:at + columns] for at in range(0, len(values), columns)]
    return values


class Fields:
    """The fields of an image, one after the other."""

    def __init__(self, data):
        self.data = data
        self.at = 0

    def take(self, size, limit=None):
        """The next field, at most the limit."""
        start, end = self.at, self.at + size
        if end > len(self.data):
            raise BadField(start)
        value = int.from_bytes(self.data[start:end], 'little')
        if limit is not None and value > limit:
            raise BadField(start)
        self.at = end
        return value

    def exactly(self, size, value):
        """A field that has only one right value."""
        start = self.at
        if self.take(size) != value:
            raise BadField(start)

    def part(self, shape, size, limit=None):
        """Nested lists by thread or bank, row, column."""
        start, count = self.at, prod(shape)
        there = min(count, (len(self.data) - start) // size)  # fields that are neither missing nor cut
        values = unpacked(self.data[start:start + there * size], size)
        if limit is not None and values and max(values) > limit:
            raise BadField(start + size * next(place for place, value in enumerate(values) if value > limit))
        self.at = start + there * size
        if there < count:
            raise BadField(self.at)
        return nested(values, shape)

    def header(self, kind, length):
        """Length and kind are fields of their own."""
        self.exactly(4, length)
        self.exactly(2, kind)

    def wait(self):
        """Kind, block, low field; with kind 0 the other two are zero."""
        kind = self.take(1, SEMAPHORE_WAIT)
        if kind == NO_WAIT:
            self.exactly(2, 0)
            self.exactly(2, 0)
            return None
        block = self.take(2, 511)
        if kind == STALL_WAIT:
            return ('stall', block, self.take(2, 32767))
        low = self.take(2, 1023)
        return ('semaphore', block, low >> 2, low & 3)


def parsed(data):
    """The machine of an image; raises BadField."""
    machine, fields = Machine.__new__(Machine), Fields(data)  # every part is set below
    fields.header(*RECORDS[0])
    machine.settings = fields.part((3, 64), 2)
    machine.mutexes = fields.part((8,), 1, 3)
    machine.semaphores = fields.part((8, 2), 1, 15)
    machine.waits = [fields.wait() for _ in range(3)]
    machine.owners = fields.part((4,), 1, 1)
    machine.pointers = fields.part((4,), 1, 1)
    fields.header(*RECORDS[1])
    machine.gprs = fields.part((3, 64), 4)
    fields.header(*RECORDS[2])
    machine.config = fields.part((2, 256), 4)
    fields.header(*RECORDS[3])
    machine.dest = fields.part((1024, 16), 2)
    fields.header(*RECORDS[4])
    packed = fields.part((128,), 1)
    machine.marks = [bool((packed[row >> 3] >> (row & 7)) & 1) for row in range(1024)]
    fields.header(*RECORDS[5])
    machine.src_a = fields.part((2, 64, 16), 3, 0x7FFFF)
    fields.header(*RECORDS[6])
    machine.src_b = fields.part((2, 64, 16), 3, 0x7FFFF)
    if len(data) > SIZE:
        raise BadField(SIZE)  # extra bytes, with everything else right
    return machine


def read_image(data):
    """('loaded', machine) or ('refused', 9, offset)."""
    try:
        return ('loaded', parsed(data))
    except BadField as bad:
        return ('refused', 9, bad.args[0])


def load(machine, data):
    """Overwrites the machine: ('loaded',), ('refused', 4) or ('refused', 9, offset). Never answers 10."""
    if not all(has_shape(getattr(machine, name), shape) for name, (shape, _) in LENT.items()):
        return ('refused', 4)
    answer = read_image(data)
    if answer[0] == 'refused':
        return answer
    machine.become(answer[1])
    return ('loaded',)
