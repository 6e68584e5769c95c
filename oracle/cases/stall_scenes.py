"""Scenes of `test_step` in which words stall by every cause (document 02, K3). Each takes the group and draws, and adds cases."""

from itertools import product

import assemble as asm
from machine import fresh
from waits import holds
from words import offer

B1, ALL_BUT_B1 = 0x002, 0x1FD  # block bits; a STALLWAIT or SEMWAIT after a wait without B1 replaces it
OTHER_BITS = 0x7E1F  # of a stall wait: all but C5 to C8
BLOCKED = ((5, asm.dmanop()), (7, asm.setc16(5, 0x1234)), (6, asm.setdvalid()), (6, asm.trnspsrcb()))  # block bit, a word of it


def under(group, draws, thread, wait, *fields):
    """A wait with these fields, and a word that it may block."""
    block, word = BLOCKED[draws.draw() % len(BLOCKED)]
    group.case(thread, wait((1 << block, ALL_BUT_B1)[draws.draw() % 2], *fields))
    group.case(thread, word)


# States of the banks.

STATES = [(bits[:4], bits[4:]) for bits in product((0, 1), repeat=8)]  # owners, pointers
MOVES = [*(asm.setdvalid(a, b) for a, b in ((1, 0), (0, 1), (1, 1))),
         *(asm.cleardvalid(a, b, keep) for a, b, keep in product((0, 1), repeat=3) if a or b)]
SCRATCH = fresh()


def bank_state(machine):
    return tuple(machine.owners), tuple(machine.pointers)


def moved(state, word):
    """The state of the banks after a word."""
    SCRATCH.owners, SCRATCH.pointers = map(list, state)
    offer(SCRATCH, 0, word)
    return bank_state(SCRATCH)


def way(state, wanted):
    """The fewest words that lead from a state to one that is wanted."""
    ways, reached = {state: ()}, [state]
    for here in reached:
        if here in wanted:
            return ways[here]
        for word in MOVES:
            there = moved(here, word)
            if there not in ways:
                ways[there] = (*ways[here], word)
                reached.append(there)
    raise AssertionError(wanted)


def stall_waits(src_a):
    """In the 16 states of the banks with these owners and pointers of SrcA: waits that name each set of C5 to C8, some with other
    bits, and words that need SrcB's bank."""
    def on(group, draws):
        wanted = {(owners, pointers) for owners, pointers in STATES if (*owners[:2], *pointers[::2]) == src_a}
        while wanted:
            thread = draws.draw() % 3
            for word in way(bank_state(group.machine), wanted):
                group.case(thread, word)
            wanted.remove(bank_state(group.machine))
            for named in (*range(1, 16), 0):
                under(group, draws, thread, asm.stallwait, named << 5 | draws.draw() & (OTHER_BITS, 0)[draws.draw() % 2])
            group.case(thread, asm.trnspsrcb())
            group.case(draws.draw() % 3, asm.movb2a(draws.draw() % 64, draws.draw() % 64))
    return on


# Semaphores: value and maximum of each. Over the three, each number is zero in one and full in one.

CONTENTS = (
    ((2, 5), (5, 2), (0, 3), (4, 4), (0, 0), (15, 15), (1, 0), (0, 15)),
    ((0, 15), (0, 9), (15, 15), (0, 0), (4, 4), (0, 3), (5, 2), (2, 5)),
    ((4, 4), (3, 3), (0, 7), (5, 2), (1, 0), (2, 5), (0, 0), (15, 15)),
)


def semaphore_masks(contents, condition):
    """Waits by one condition for every mask."""
    def on(group, draws):
        for number, (value, maximum) in enumerate(contents):
            group.case(0, asm.seminit(1 << number, value, maximum))
        for mask in range(256):
            under(group, draws, mask % 3, asm.semwait, mask, condition)
    return on


def semaphore_values(values):
    """Waits by each condition for every maximum with these values; the other semaphores meet none."""
    def on(group, draws):
        for value, maximum in product(values, range(16)):
            group.case(0, asm.seminit(255, 1, 2))
            group.case(0, asm.seminit(1 << maximum % 8, value, maximum))
            for condition in range(4):
                under(group, draws, maximum % 3, asm.semwait, 1 << maximum % 8 | draws.draw() % 256, condition)
    return on


def mutex_holders(group, draws):
    """Each mutex held by each thread and asked for by each: with no wait, with one that holds by a semaphore, with a lifted one."""
    group.case(0, asm.seminit(255, 0, 1))
    for mutex, holder in product(range(8), range(3)):
        for thread in range(3):
            group.case(thread, asm.atrelm(mutex))
        get, mask = asm.atgetm(mutex), 1 << mutex
        group.case(holder, get)
        group.case(holder, get)
        for other in ((holder + 1) % 3, (holder + 2) % 3):
            for word in (get, asm.semwait(B1, mask, 1), get):
                group.case(other, word)
            for thread, word in ((holder, asm.sempost(mask)), (other, get), (other, asm.nop()), (holder, asm.semget(mask))):
                group.case(thread, word)


def from_calm(scene):
    """The scene where no wait holds; nothing if the threads can't lift them all."""
    def on(group, draws):
        group.calm()
        if not any(holds(group.machine, wait) for wait in group.machine.waits):
            scene(group, draws)
    return on


SCENES = [from_calm(scene) for scene in (
    *(stall_waits(src_a) for src_a in product((0, 1), repeat=4)),
    semaphore_masks(CONTENTS[0], 0),
    *(semaphore_masks(contents, condition) for contents in CONTENTS for condition in (1, 2, 3)),
    *(semaphore_values(range(start, start + 4)) for start in range(0, 16, 4)),
    mutex_holders,
)]
