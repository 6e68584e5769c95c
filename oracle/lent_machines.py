"""Machines made for a test: a seed's, with one number set, and each part lent at a length of its own. The other side makes
the same."""

import struct
from collections import namedtuple
from functools import lru_cache
from math import prod

import seeded
from machine import LENT

# A machine's seed; a number set in it, by its kind (0 none), place and value; and a part (0 none) lent with another length.
Made = namedtuple('Made', 'seed kind place value part length', defaults=(0, 0, 0, 0, 0))

MUTEX, SEMAPHORE, OWNER, POINTER, STALL, WAIT, CELL_A, CELL_B = range(1, 9)
UNSET = (0, 0, 0)
PARTS = tuple(LENT)
SIZES = {name: prod(shape) for name, (shape, _) in LENT.items()}
ROOM = 2  # there is twice the machine's of each part, the rest zero


# Values of several fields.

def semaphore(value, maximum):
    return value | maximum << 8


def stall(block, conditions):
    return block | conditions << 16


def wait(block, mask, condition):
    return block | mask << 16 | condition << 24


def set_control(machine, kind, place, value):
    """Sets a number of the control part."""
    if kind == MUTEX:
        machine.mutexes[place] = value
    elif kind == SEMAPHORE:
        machine.semaphores[place] = [value & 255, value >> 8]
    elif kind == OWNER:
        machine.owners[place] = value
    elif kind == POINTER:
        machine.pointers[place] = value
    elif kind == STALL:
        machine.waits[place] = ('stall', value & 0xFFFF, value >> 16)
    elif kind == WAIT:
        machine.waits[place] = ('semaphore', value & 0xFFFF, value >> 16 & 255, value >> 24)


def cell_at(banks, place):
    return banks[place // 1024][place // 16 % 64][place % 16]


def set_cell(banks, place, value):
    banks[place // 1024][place // 16 % 64][place % 16] = value


@lru_cache(maxsize=64)  # not more, since ./crosscheck has another seed for each machine
def whole(seed):
    return seeded.machine(seed)


def machine_of(made):
    """The machine, each part at its size."""
    machine = whole(made.seed).copy()
    set_control(machine, made.kind, made.place, made.value)
    if made.kind in (CELL_A, CELL_B):
        set_cell(machine.src_a if made.kind == CELL_A else machine.src_b, made.place, made.value)
    return machine


# What is lent of it.

def count(part):
    return sum(map(count, part)) if part and isinstance(part[0], list) else len(part)


def resized(part, length):
    """The first so many numbers of nested lists, with zeros after the last where there are not enough."""
    if not isinstance(part[0], list):
        return part[:length] + [0] * (length - len(part))
    kept = []
    for place, inner in enumerate(part):
        size = length if place == len(part) - 1 else min(length, count(inner))
        if size:
            kept.append(resized(inner, size))
        length -= size
    return kept


def lent(machine, made):
    """What is handed in: the machine itself, or a copy of which one part has another length."""
    if not made.part or (made.part, made.length) in RIGHT_LENGTHS:
        return machine
    other, name = machine.copy(), PARTS[made.part - 1]
    setattr(other, name, resized(getattr(other, name), min(made.length, ROOM * SIZES[name])))
    return other


def packed(made):
    return struct.pack('<6I', *made)


def digest(machine):
    """Checksum of all that there is of each part."""
    return seeded.digest(machine, ROOM)


# Numbers and lengths that are right, and that are not.

# A value just past the range of one of its fields, and what one of that field is.
Limit = namedtuple('Limit', 'kind place past one')
LIMITS = (
    Limit(MUTEX, 7, 4, 1),
    Limit(SEMAPHORE, 7, semaphore(16, 15), semaphore(1, 0)),
    Limit(SEMAPHORE, 0, semaphore(15, 16), semaphore(0, 1)),
    Limit(OWNER, 3, 2, 1),
    Limit(POINTER, 3, 2, 1),
    Limit(STALL, 0, stall(512, 32767), stall(1, 0)),
    Limit(STALL, 1, stall(511, 32768), stall(0, 1)),
    Limit(WAIT, 2, wait(512, 255, 3), wait(1, 0, 0)),
    Limit(WAIT, 0, wait(511, 0, 4), wait(0, 0, 1)),
    Limit(CELL_A, 2047, 0x80000, 1),
    Limit(CELL_B, 0, 0x80000, 1),
)
PAST = [(limit.kind, limit.place, limit.past) for limit in LIMITS]
AT_END = [(limit.kind, limit.place, limit.past - limit.one) for limit in LIMITS]

RIGHT_LENGTHS = [(part, SIZES[name]) for part, name in enumerate(PARTS, 1)]
WRONG_LENGTHS = [(part, length) for part, size in RIGHT_LENGTHS for length in (0, 1, size - 1, size + 1, ROOM * size)]

# How many there are of each kind, and the bits that the other side holds of a value.
PLACES = {MUTEX: 8, SEMAPHORE: 8, OWNER: 4, POINTER: 4, STALL: 3, WAIT: 3, CELL_A: 2048, CELL_B: 2048}
HELD = {MUTEX: 8, SEMAPHORE: 16, OWNER: 8, POINTER: 8}


def any_number(draws, last=CELL_B):
    """A number of any kind up to the last, at any place: at the end of its range, just past it, or any value at all."""
    among = [limit for limit in LIMITS if limit.kind <= last]
    limit = among[draws.draw() % len(among)]
    anything = draws.word() & (1 << HELD.get(limit.kind, 32)) - 1
    value = (limit.past - limit.one, limit.past, anything)[draws.draw() % 3]
    return limit.kind, draws.draw() % PLACES[limit.kind], value


def any_length(draws):
    """A part, and a length that may be right."""
    listed = RIGHT_LENGTHS + WRONG_LENGTHS
    part, length = listed[draws.draw() % len(listed)]
    if draws.draw() % 3 == 0:
        length = draws.word() % (ROOM * SIZES[PARTS[part - 1]] + 1)
    return part, length


def any_made(draws):
    """A machine of any seed; at times a number is set in it, or a part lent at a length of its own."""
    number = any_number(draws) if draws.draw() % 4 == 0 else UNSET
    length = any_length(draws) if draws.draw() % 6 == 0 else (0, 0)
    return Made(draws.word(), *number, *length)
