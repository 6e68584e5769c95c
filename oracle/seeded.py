"""Machines and streams from a seed, and a checksum of a whole machine; the other side writes the same."""

import struct
import zlib
from itertools import chain

from image import wait_numbers
from machine import Machine


class Draws:
    """A small generator: state of 32 bits, draws of 16."""

    def __init__(self, seed):
        self.state = seed

    def draw(self):
        self.state = (self.state * 1664525 + 1013904223) & 0xFFFFFFFF
        return self.state >> 16

    def word(self):
        """Two draws, the first the high half."""
        high = self.draw()
        return (high << 16) | self.draw()

    def cell(self):
        """A source cell: a word's low 19 bits."""
        return self.word() & 0x7FFFF

    def mark(self):
        """Set where the number drawn is odd."""
        return self.draw() % 2 == 1

    def words(self, count):
        """A stream of words."""
        return [self.word() for _ in range(count)]

    def wait(self):
        """Three draws: kind, block, low field."""
        kind, block, low = self.draw() % 3, self.draw() % 512, self.draw()
        if kind == 0:
            return None
        if kind == 1:
            return ('stall', block, low % 32768)
        return ('semaphore', block, (low >> 2) & 255, low & 3)


def rows(make, count, columns=16):
    """Rows of numbers, each made in order."""
    return [[make() for _ in range(columns)] for _ in range(count)]


def control_from(draws, made):
    """The machine's control part, from the next draws."""
    draw = draws.draw
    made.mutexes = [draw() % 4 for _ in range(8)]
    made.semaphores = [[draw() % 16, draw() % 16] for _ in range(8)]
    made.waits = [draws.wait() for _ in range(3)]
    made.owners = [draw() % 2 for _ in range(4)]
    made.pointers = [draw() % 2 for _ in range(4)]


def machine_from(draws):
    """A well formed machine from the next draws."""
    draw, word, cell = draws.draw, draws.word, draws.cell
    made = Machine()
    control_from(draws, made)
    made.settings = rows(draw, 3, 64)
    made.gprs = rows(word, 3, 64)
    made.config = rows(word, 2, 256)
    made.dest = rows(draw, 1024)
    made.marks = [draws.mark() for _ in range(1024)]
    made.src_a = [rows(cell, 64) for _ in range(2)]
    made.src_b = [rows(cell, 64) for _ in range(2)]
    return made


def machine(seed):
    """The machine of a seed."""
    return machine_from(Draws(seed))


flat = chain.from_iterable

SETTINGS = struct.Struct('<192H')
WAIT = struct.Struct('<BHH')
GPRS = struct.Struct('<192I')
CONFIG = struct.Struct('<512I')
DEST = struct.Struct('<16384H')
SOURCE = struct.Struct('<2048I')


def control_bytes(made):
    """The control part, little-endian, in the order of the checksum."""
    return b''.join((
        bytes(made.mutexes),
        bytes(flat(made.semaphores)),
        b''.join(WAIT.pack(*wait_numbers(wait)) for wait in made.waits),
        bytes(made.owners),
        bytes(made.pointers),
    ))


def state_bytes(made, times=1):
    """Every part of a machine, little-endian, in the order of the checksum, and after a lent one zeros up to so many times its size."""
    settings, *stores = (part.ljust(times * len(part), b'\0') for part in (
        SETTINGS.pack(*flat(made.settings)),
        GPRS.pack(*flat(made.gprs)),
        CONFIG.pack(*flat(made.config)),
        DEST.pack(*flat(made.dest)),
        bytes(made.marks),
        SOURCE.pack(*flat(flat(made.src_a))),
        SOURCE.pack(*flat(flat(made.src_b))),
    ))
    return b''.join((settings, control_bytes(made), *stores))


def digest(made, times=1):
    """Checksum of the whole state."""
    return zlib.adler32(state_bytes(made, times))
