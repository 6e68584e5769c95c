"""What several tests share."""

from functools import lru_cache

import seeded


@lru_cache(maxsize=None)
def made(seed):
    return seeded.machine(seed)


def busy(seed):
    """A copy of a seed's machine."""
    return made(seed).copy()


def still(seed):
    """The same without waits, so that no word is blocked and no wait dropped."""
    machine = busy(seed)
    machine.waits = [None] * 3
    return machine


def bank_states():
    """All 256 states of the four owners and four pointers."""
    for number in range(256):
        digits = [int(digit) for digit in f'{number:08b}']
        yield digits[:4], digits[4:]
